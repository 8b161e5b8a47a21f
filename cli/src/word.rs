//! Words to ask about: the characters of a command as it is sent.
use ropeclover::{AbnfGrammar, Missing, STATES};
use std::fmt;
use std::str::FromStr;

/// The most characters of a word, which leads through one state more.
const MOST: usize = STATES - 1;

/// A word, by its characters.
#[derive(Clone, Debug, PartialEq, Eq)]
pub struct Word(Vec<u8>);

/// The first character of a text that is not empty, and how long it is spelled: itself, or `%x` and two digits.
fn first(text: &str) -> Result<(u8, usize), String> {
    if text.starts_with("%x") || text.starts_with("%X") {
        let digits = text.get(2..4).filter(|digits| digits.bytes().all(|digit| digit.is_ascii_hexdigit()));
        let character = digits.and_then(|digits| u8::from_str_radix(digits, 16).ok());
        return Ok((character.ok_or("%x is followed by two hexadecimal digits; a percent sign itself is %x25")?, 4));
    }
    match text.as_bytes() {
        [character, ..] if character.is_ascii() => Ok((*character, 1)),
        _ => Err("a character that is not ASCII is written by its number, as %xE9".into()),
    }
}

impl FromStr for Word {
    type Err = String;

    fn from_str(text: &str) -> Result<Self, String> {
        let (mut characters, mut rest) = (Vec::new(), text);
        while !rest.is_empty() {
            let (character, length) = first(rest)?;
            characters.push(character);
            rest = &rest[length..];
        }
        match characters.len() {
            0..=MOST => Ok(Word(characters)),
            length => {
                Err(format!("a word has at most {MOST} characters, as there are {STATES} states; this has {length}"))
            }
        }
    }
}

/// The word as it may be typed: what is not visible, and a percent sign before an x, by its number.
impl fmt::Display for Word {
    fn fmt(&self, f: &mut fmt::Formatter<'_>) -> fmt::Result {
        for (at, character) in self.0.iter().enumerate() {
            let before_x = matches!(self.0.get(at + 1), Some(b'x' | b'X'));
            match character {
                b'%' if before_x => write!(f, "%x25")?,
                b'!'..=b'~' => write!(f, "{}", char::from(*character))?,
                _ => write!(f, "%x{character:02X}")?,
            }
        }
        Ok(())
    }
}

impl Word {
    /// The records of the automaton that reads this word alone: a chain of states, one behind each character. For a character that the grammar does not
    /// use there is no terminal, so no transition, and nothing leads to the end.
    pub fn automaton(&self, grammar: &AbnfGrammar) -> Vec<u8> {
        let steps = (0..).zip(&self.0).filter_map(|(state, character)| Some((state, grammar.terminal(*character)?)));
        let transitions = steps.flat_map(|(state, terminal)| [b'T', state, terminal, state + 1]);
        [b'I', 0, 0, 0, b'F', self.0.len() as u8, 0, 0].into_iter().chain(transitions).collect()
    }
}

/// A word that a grammar is asked about.
#[derive(Clone, Debug)]
pub struct AskedWord {
    pub word: Word,
    /// Its first character that the grammar does not use, if there is one.
    pub missing: Option<Missing>,
}

impl AskedWord {
    pub fn new(word: &Word, grammar: &AbnfGrammar) -> Self {
        AskedWord { word: word.clone(), missing: grammar.word(&word.0).err() }
    }

    /// Why the answer is no whatever the rules say, where a character is missing.
    pub fn reason(&self) -> Option<String> {
        Some(format!("word '{}': {}, so the answer is no", self.word, self.missing?))
    }
}

#[cfg(test)]
mod tests {
    use super::Word;

    fn read(text: &str) -> Result<Vec<u8>, String> {
        text.parse::<Word>().map(|word| word.0)
    }

    #[test]
    fn characters_and_their_numbers() {
        assert_eq!(read("M5;"), Ok(b"M5;".to_vec()));
        assert_eq!(read(""), Ok(vec![]));
        assert_eq!(read("%x0D%XfF5%x2541"), Ok(vec![13, 255, b'5', b'%', b'4', b'1']));
        assert_eq!(read("50% %"), Ok(b"50% %".to_vec()));
        assert_eq!(read("\r\t\""), Ok(b"\r\t\"".to_vec()));
        assert_eq!(read(&"%x00".repeat(31)), Ok(vec![0; 31]));
    }

    #[test]
    fn what_is_no_word() {
        for text in ["%x", "a%x0", "%x0g", "%x+1", "%x\u{e9}\u{e9}"] {
            assert!(read(text).unwrap_err().starts_with("%x is followed by two hexadecimal digits"), "{text}");
        }
        assert!(read("gr\u{fc}n").unwrap_err().contains("as %xE9"));
        assert!(read(&"a".repeat(32)).unwrap_err().ends_with("as there are 32 states; this has 32"));
    }

    #[test]
    fn a_word_is_shown_as_it_may_be_typed() {
        for text in ["M5T88;", "%x0D", "%x25x41", "5%", "a%x20b", "%xE9%x00", "%x25X"] {
            assert_eq!(text.parse::<Word>().unwrap().to_string(), text);
        }
        assert_eq!("%x41 %x25%x7E".parse::<Word>().unwrap().to_string(), "A%x20%~");
    }
}
