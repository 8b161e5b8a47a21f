//! Jobs as text again.
use super::names::Names;
use crate::format::{classes, Class};
use crate::long::{self, LongRecord};
use crate::LONG_RECORD_BYTES;
use std::iter;

/// A kind's word: its letter, or a byte that is none in hexadecimal.
fn kind_word(kind: u8) -> String {
    if kind.is_ascii_alphabetic() {
        char::from(kind).to_string()
    } else {
        format!("0x{kind:02x}")
    }
}

/// A field's word: a name of its class, or its number.
fn field_word(byte: u8, class: Class, names: &Names) -> String {
    match class {
        Class::Unused => byte.to_string(),
        Class::Variable | Class::Symbol => names.symbol(byte).into_owned(),
        Class::State => names.state(byte).into_owned(),
    }
}

/// The words of a record: its kind and three fields, with the names of their classes. A kind byte that is no letter is spelled in hexadecimal.
///
/// ```
/// use ropeclover::text::{spelling, Names};
/// assert_eq!(spelling([b'P', 0, 1, 200], &Names::default()).join(" "), "P 0 1 200");
/// assert_eq!(spelling([7, 0, 0, 0], &Names::default())[0], "0x07");
/// ```
pub fn spelling(record: [u8; 4], names: &Names) -> [String; 4] {
    let [kind, a, b, c] = record;
    let [first, second, third] = classes(kind).unwrap_or([Class::Unused; 3]);
    [kind_word(kind), field_word(a, first, names), field_word(b, second, names), field_word(c, third, names)]
}

/// The words of a long job's record: its kind and its fields, of an L record the head and the symbols of the body. What stands past them is not
/// spelled.
///
/// ```
/// use ropeclover::long::rule;
/// use ropeclover::text::{long_spelling, Names};
/// assert_eq!(long_spelling(&rule(0, &[32, 1, 33]).unwrap(), &Names::default()).join(" "), "L 0 32 1 33");
/// ```
pub fn long_spelling(record: &LongRecord, names: &Names) -> Vec<String> {
    let kind = record[0];
    let word = |(field, byte)| field_word(byte, long::class(kind, field).unwrap_or(Class::Unused), names);
    iter::once(kind_word(kind)).chain((1..).zip(long::fields(record)).map(word)).collect()
}

/// The line of a record; none for bytes that no line stands for.
fn line(bytes: &[u8], names: &Names) -> Option<String> {
    bytes.first().filter(|kind| kind.is_ascii_alphabetic())?;
    if let Ok(record) = <[u8; 4]>::try_from(bytes) {
        return Some(spelling(record, names).join(" "));
    }
    let record = LongRecord::try_from(bytes).ok().filter(long::is_padded)?;
    Some(long_spelling(&record, names).join(" "))
}

/// A line for each number that has a name.
fn name_lines<'a>(word: &str, name: impl Fn(u8) -> Option<&'a str>) -> String {
    (0..64).filter_map(|number| Some(format!("{word} {number} {}\n", name(number)?))).collect()
}

/// The text of a job or a long job with names: their lines, and one for each record.
///
/// ```
/// use ropeclover::text::{print, read};
/// let names = read("name 0 go\nname 32 \"G\"\nstate 1 tuned\n").unwrap().names;
/// let text = "name 0 go\nname 32 \"G\"\nstate 1 tuned\nU go \"G\" 0\nF tuned 0 0\n";
/// assert_eq!(print(b"U\0\x20\0F\x01\0\0", &names).unwrap(), text);
/// ```
///
/// # Errors
/// The number, from 0, of the first record that has no line, as its kind byte is no letter, it has too few bytes, or it is not padded by zeros.
pub fn print(job: &[u8], names: &Names) -> Result<String, usize> {
    let mut text = name_lines("name", |symbol| names.symbol_name(symbol));
    text.push_str(&name_lines("state", |state| names.state_name(state)));
    let size = if long::is_long(job) { LONG_RECORD_BYTES } else { 4 };
    for (number, bytes) in job.chunks(size).enumerate() {
        text.push_str(&line(bytes, names).ok_or(number)?);
        text.push('\n');
    }
    Ok(text)
}

/// The text of a job or a long job, a line for each record.
///
/// ```
/// use ropeclover::text::disassemble;
/// assert_eq!(disassemble(b"S\0\0\0P\0\x01\x01").unwrap(), "S 0 0 0\nP 0 1 1\n");
/// assert_eq!(disassemble(b"L\0\x03\x20\x01\x21\0\0\0\0\0\0").unwrap(), "L 0 32 1 33\n");
/// assert_eq!(disassemble(b"S\0\0\0\0\0\0\0"), Err(1));
/// ```
///
/// # Errors
/// As [`print()`].
pub fn disassemble(job: &[u8]) -> Result<String, usize> {
    print(job, &Names::default())
}
