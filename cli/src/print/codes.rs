//! Symbols by kind.
use ropeclover::text::Names;
use ropeclover::CODES;
use std::io::{self, Write};

/// What a code says.
pub fn kind(code: u8) -> &'static str {
    match code {
        1 => "useful",
        2 => "derives no string",
        3 => "never reached",
        _ => "not named",
    }
}

/// A heading for each kind, and its symbols: number and name.
pub fn write(output: &mut dyn Write, codes: &[u8; CODES], names: &Names, all: bool) -> io::Result<()> {
    let kinds: &[u8] = if all { &[1, 2, 3, 0] } else { &[1, 2, 3] };
    for code in kinds {
        let symbols: Vec<u8> = (0..CODES as u8).filter(|symbol| codes[usize::from(*symbol)] == *code).collect();
        writeln!(output, "{}: {}", kind(*code), symbols.len())?;
        for symbol in symbols {
            match names.symbol_name(symbol) {
                Some(name) => writeln!(output, "  {symbol} {name}")?,
                None => writeln!(output, "  {symbol}")?,
            }
        }
    }
    Ok(())
}

/// A line 'SYMBOL CODE' for each of the 64 symbols.
pub fn write_numbers(output: &mut dyn Write, codes: &[u8; CODES]) -> io::Result<()> {
    codes.iter().enumerate().try_for_each(|(symbol, code)| writeln!(output, "{symbol} {code}"))
}
