//! ABNF text: the file as it is, how the library reads it, and what is told of one that it refuses.
#[cfg(test)]
mod agreement;
mod limits;
mod names;
mod needs;
mod outside;
mod pieces;
mod said;
mod told;

use ropeclover::{abnf_grammar, AbnfGrammar, Operation, Refusal, ABNF_BYTES};
pub use told::{told, Told};

/// A file of ABNF text. Of a longer one than is read, the bytes that tell so.
#[derive(Clone, Debug)]
pub struct Abnf {
    pub file: Vec<u8>,
    /// What it says, where it is read.
    pub grammar: Option<AbnfGrammar>,
}

/// Whether a line feed stands alone there, without CR before it.
fn is_bare(file: &[u8], at: usize) -> bool {
    file[at] == b'\n' && !file[..at].ends_with(b"\r")
}

/// The text of a file, whose line ends are CRLF or LF: with CRLF.
fn with_line_ends(file: &[u8]) -> Vec<u8> {
    let bytes = file.iter().enumerate();
    bytes.flat_map(|(at, byte)| is_bare(file, at).then_some(b'\r').into_iter().chain([*byte])).collect()
}

/// The offset in a file of what stands at an offset in its text. A line end stands where its LF does if that is all of it.
fn in_file(file: &[u8], offset: u64) -> u64 {
    let mut before = 0;
    for at in 0..file.len() {
        before += 1 + u64::from(is_bare(file, at));
        if offset < before {
            return at as u64;
        }
    }
    file.len() as u64
}

impl Abnf {
    /// Reads a file of at most [`ABNF_BYTES`] bytes; of a longer one, one byte more is enough. A refusal has its offset in the file.
    pub fn read(file: Vec<u8>) -> (Self, Option<Refusal>) {
        let read = match file.len() > ABNF_BYTES {
            true => abnf_grammar(&file),
            false => abnf_grammar(&with_line_ends(&file)),
        };
        match read {
            Ok(grammar) => (Abnf { file, grammar: Some(grammar) }, None),
            Err(refusal) => {
                let refusal = match refusal.number() {
                    number @ (16 | 17) => Refusal::of(Operation::ReadAbnf, number, in_file(&file, refusal.place())),
                    _ => refusal,
                };
                (Abnf { file, grammar: None }, Some(refusal))
            }
        }
    }
}

#[cfg(test)]
mod tests {
    use super::{in_file, with_line_ends};

    #[test]
    fn line_ends() {
        for (file, text) in [
            ("a=b\nb=\"\"\n", "a=b\r\nb=\"\"\r\n"),
            ("a=b\r\nb=\"\"\n", "a=b\r\nb=\"\"\r\n"),
            ("\n\n", "\r\n\r\n"),
            ("\r\r\n\n\r", "\r\r\n\r\n\r"),
            ("", ""),
        ] {
            assert_eq!(with_line_ends(file.as_bytes()), text.as_bytes(), "{file:?}");
        }
    }

    /// Each byte of a text stands where that byte of the file stands; a CR that the file lacks stands at the LF.
    #[test]
    fn offsets() {
        let file = b"a\nb\r\nc\n";
        let offsets = (0..11).map(|offset| in_file(file, offset));
        assert_eq!(offsets.collect::<Vec<u64>>(), [0, 1, 1, 2, 3, 4, 5, 6, 6, 7, 7]);
    }
}
