//! Grammars as ABNF text: rules of RFC 5234, one to a line.
use crate::calls::answered;
use crate::long::Tail;
use crate::text::{is_name, Names};
use crate::{ffi, Operation, Refusal, COPY_BYTES, MAP_BYTES, SYMBOLS, VARIABLES};
use std::fmt;

/// What [`read_abnf`] answers.
///
/// ```
/// let read: ropeclover::TextRead = ropeclover::read_abnf(b"a=\"\"\r\n", &mut [0; 32], &mut [0; 8]).unwrap();
/// assert_eq!((read.records, read.characters), (2, 0));
/// ```
#[derive(Clone, Copy, Debug, PartialEq, Eq)]
pub struct TextRead {
    /// The records of the job written, 4 bytes each.
    pub records: usize,
    /// The characters used, which stand at the front of the map.
    pub characters: usize,
}

/// Reads a grammar from ABNF text: writes its job, and the map of its terminals to characters. [`abnf_grammar`] lends buffers that are long
/// enough, and names the symbols.
///
/// The part of RFC 5234 that is read: lines of one rule each, which end by CRLF; names in any case, `=` and `=/`, alternatives, elements one behind
/// the other, quoted strings, `%x` values of at most FF with dots, and a comment before a line's end. For a letter in a quoted string either case serves;
/// one of a `%x` value stands for itself.
///
/// The characters used are the terminals from 32 on in ascending order, and the map lists them: 32 bytes, 0 past the last. The names are the
/// variables from 0 on in the order of their first rules, the first being the start symbol. Behind them, body after body, a variable is taken for each
/// letter of a string that is new, with a rule for each case, and then for each tail of the body, as [`binarize`](crate::binarize) takes them. The job
/// is S and then the different rules by their ranks; it has no T, I and F records. What the start symbol derives, read through the map, is what the
/// first name of the text derives by the RFC, and so for each name and its variable. That is proved of the library.
///
/// ```
/// use ropeclover::{read_abnf, TextRead};
/// let (mut map, mut job) = ([7; 33], [7; 24]);
/// let read = read_abnf(b"tune = \"f\" %x31\r\n", &mut map, &mut job);
/// assert_eq!(read, Ok(TextRead { records: 4, characters: 3 }));
/// // The characters are 1, F and f; variable 1 is for the letter.
/// assert_eq!((&map[..4], map[31], map[32]), (&b"1Ff\0"[..], 0, 7));
/// assert_eq!(&job, b"S\0\0\0P\0\x01\x20U\x01\x21\0U\x01\x22\0\x07\x07\x07\x07\x07\x07\x07\x07");
/// ```
///
/// # Errors
/// Refusals 10 (map), 2, 16, 17, 18, 7 with place 257, and 13 with the records needed. Nothing is written then.
pub fn read_abnf(text: &[u8], map: &mut [u8], job: &mut [u8]) -> Result<TextRead, Refusal> {
    let answer = ffi::ropeclover_read_abnf(text, map, job);
    let [_, _, records, characters] = answered(Operation::ReadAbnf, answer)?;
    Ok(TextRead { records: records as usize, characters: characters as usize })
}

/// The grammar of an ABNF text, in memory of its own.
///
/// ```
/// use ropeclover::{abnf_grammar, AbnfGrammar, Workspace};
///
/// let grammar: AbnfGrammar = abnf_grammar(b"tune = \"F\" digits\r\ndigits = %x31 / %x31 digits\r\n").unwrap();
/// assert_eq!(grammar.characters, b"1Ff");
/// // The language grows, and the automaton that reads the word f11 leads the start symbol to its end.
/// let word = grammar.word(b"f11").unwrap();
/// let chain = word.iter().zip(0..).flat_map(|(terminal, state)| [b'T', state, *terminal, state + 1]);
/// let job: Vec<u8> = grammar.job.iter().copied().chain(chain).chain(*b"I\0\0\0F\x03\0\0").collect();
/// let report = Workspace::new().report(&job).unwrap();
/// assert!(report.start && report.growing);
/// ```
#[derive(Clone, Debug, PartialEq, Eq)]
pub struct AbnfGrammar {
    /// The job, without T, I and F records.
    pub job: Vec<u8>,
    /// The characters used, in ascending order: character i is terminal 32 + i.
    pub characters: Vec<u8>,
    names: Names,
}

/// Reads a grammar from ABNF text, as [`read_abnf`] does.
///
/// ```
/// let grammar = ropeclover::abnf_grammar(b"a=%x41\r\n").unwrap();
/// assert_eq!((grammar.job, grammar.characters), (b"S\0\0\0U\0\x20\0".to_vec(), b"A".to_vec()));
/// assert_eq!(ropeclover::abnf_grammar(b"a=b\r\n").unwrap_err().number(), 17);
/// ```
///
/// # Errors
/// Refusals 2, 16, 17, 18 and 7.
pub fn abnf_grammar(text: &[u8]) -> Result<AbnfGrammar, Refusal> {
    // A job that is read has S and at most as many rules as a clean copy.
    let (mut job, mut characters) = (vec![0; COPY_BYTES], vec![0; MAP_BYTES]);
    let read = read_abnf(text, &mut characters, &mut job)?;
    job.truncate(4 * read.records);
    characters.truncate(read.characters);
    let names = named(text, &job, &characters);
    Ok(AbnfGrammar { job, characters, names })
}

impl AbnfGrammar {
    /// The names of the symbols. A rule's name is spelled as where it is first defined. A terminal is its character in quotes, `"x"`, or `%x0D` where that
    /// is not visible. A variable that is taken for a letter is `"f"/"F"`; one for the tail of a body is named as that of a long rule, by
    /// [`Names::name_tails`]. What would have more characters than a name may have in [a text](crate::text) has none.
    ///
    /// ```
    /// let grammar = ropeclover::abnf_grammar(b"Go = %x47.0D.0A / \"g\" go\r\n").unwrap();
    /// let names: Vec<_> = [0, 1, 2, 32, 33, 34, 35].map(|symbol| grammar.names().symbol(symbol)).into();
    /// assert_eq!(names, ["Go", "Go.2", "\"g\"/\"G\"", "%x0A", "%x0D", "\"G\"", "\"g\""]);
    /// ```
    pub fn names(&self) -> &Names {
        &self.names
    }

    /// The terminal of a character; none where the text does not use it.
    ///
    /// ```
    /// let grammar = ropeclover::abnf_grammar(b"a=\"x\"\r\n").unwrap();
    /// assert_eq!([b'X', b'x', b'y'].map(|character| grammar.terminal(character)), [Some(32), Some(33), None]);
    /// ```
    pub fn terminal(&self, character: u8) -> Option<u8> {
        let place = self.characters.iter().position(|other| *other == character)?;
        Some((VARIABLES + place) as u8)
    }

    /// The terminals of a word, one for each character.
    ///
    /// ```
    /// let grammar = ropeclover::abnf_grammar(b"a=\"x\"\r\n").unwrap();
    /// assert_eq!(grammar.word(b"xX").unwrap(), [33, 32]);
    /// let missing = grammar.word(b"xy").unwrap_err();
    /// assert_eq!((missing.character, missing.position), (b'y', 1));
    /// ```
    ///
    /// # Errors
    /// The first character that the text does not use: no word with it is derived.
    pub fn word(&self, text: &[u8]) -> Result<Vec<u8>, Missing> {
        let terminal = |(position, character): (usize, &u8)| {
            self.terminal(*character).ok_or(Missing { character: *character, position })
        };
        text.iter().enumerate().map(terminal).collect()
    }
}

/// A character of a word that a text does not use; see [`AbnfGrammar::word`].
///
/// ```
/// let missing: ropeclover::Missing = ropeclover::abnf_grammar(b"a=%x41\r\n").unwrap().word(b"A\n").unwrap_err();
/// assert_eq!(missing.to_string(), "the character %x0A at position 1 of the word is not used in the grammar");
/// ```
#[derive(Clone, Copy, Debug, PartialEq, Eq)]
pub struct Missing {
    /// The character.
    pub character: u8,
    /// Its position in the word, from 0.
    pub position: usize,
}

impl fmt::Display for Missing {
    fn fmt(&self, f: &mut fmt::Formatter<'_>) -> fmt::Result {
        let character = character_name(self.character);
        write!(f, "the character {character} at position {} of the word is not used in the grammar", self.position)
    }
}

impl std::error::Error for Missing {}

/// A character's name: in quotes as a text spells it, or by its number.
fn character_name(character: u8) -> String {
    match character {
        b'"' | b'\\' => format!("\"\\{}\"", char::from(character)),
        b' '..=b'~' => format!("\"{}\"", char::from(character)),
        _ => format!("%x{character:02X}"),
    }
}

/// The names of an accepted text in the order in which they are first defined, each spelled as it is there.
fn rule_names(text: &[u8]) -> Vec<String> {
    let mut names: Vec<String> = Vec::new();
    // Every line is a rule, and no string or comment has a line end.
    for line in text.split(|byte| *byte == b'\n') {
        let is_of_name = |byte: &&u8| byte.is_ascii_alphanumeric() || **byte == b'-';
        let name: String = line.iter().take_while(is_of_name).copied().map(char::from).collect();
        if !name.is_empty() && !names.iter().any(|other| other.eq_ignore_ascii_case(&name)) {
            names.push(name);
        }
    }
    names
}

/// What a variable past those of the rules' names is for.
enum Fresh {
    /// A letter in both cases.
    Letter(u8),
    /// The end of a body of this variable, a rule's or a tail's itself.
    Tail(u8),
}

/// The job says what it is for: a letter has a U record for each case; a tail has a P record, and stands last in that of the variable it belongs to.
fn fresh(variable: u8, records: &[[u8; 4]], characters: &[u8]) -> Option<Fresh> {
    if let Some([_, _, terminal, _]) = records.iter().find(|record| record[..2] == [b'U', variable]) {
        let place = usize::from(*terminal).checked_sub(VARIABLES)?;
        return characters.get(place).copied().map(Fresh::Letter);
    }
    let [_, head, ..] = records.iter().find(|record| record[0] == b'P' && record[3] == variable)?;
    Some(Fresh::Tail(*head))
}

/// The tail that a variable is taken for, by the head of the rule in which it stands last and the tails before it: the next of a tail's own body, or the
/// first of another body of a name.
fn tail(variable: u8, head: u8, before: &[Tail]) -> Tail {
    if let Some(last) = before.iter().find(|tail| tail.variable == head) {
        return Tail { variable, from: last.from + 1, ..*last };
    }
    let rule = 1 + before.iter().filter(|tail| tail.head == head && tail.from == 2).count();
    Tail { variable, head, rule, from: 2 }
}

/// The names of the symbols of a job that was read from a text.
fn named(text: &[u8], job: &[u8], characters: &[u8]) -> Names {
    let records: Vec<[u8; 4]> = job.chunks_exact(4).filter_map(|bytes| bytes.try_into().ok()).collect();
    let rules = rule_names(text);
    let first_fresh = rules.len() as u8;
    let mut called: Vec<(u8, String)> = (0..).zip(rules).collect();
    called.extend((VARIABLES as u8..).zip(characters.iter().copied().map(character_name)));
    let mut tails: Vec<Tail> = Vec::new();
    for variable in first_fresh..VARIABLES as u8 {
        match fresh(variable, &records, characters) {
            Some(Fresh::Letter(letter)) => {
                let [small, capital] = [letter.to_ascii_lowercase(), letter.to_ascii_uppercase()].map(character_name);
                called.push((variable, format!("{small}/{capital}")));
            }
            Some(Fresh::Tail(head)) => tails.push(tail(variable, head, &tails)),
            None => break,
        }
    }
    let mut names = Names::default();
    for (symbol, name) in called.iter().filter(|(_, name)| is_name(name)) {
        names.name_symbol(*symbol, name);
    }
    names.name_tails(&tails);
    // A text that is read has its names in the order of the symbols.
    let mut ordered = Names::default();
    for symbol in 0..SYMBOLS as u8 {
        if let Some(name) = names.symbol_name(symbol) {
            ordered.name_symbol(symbol, name);
        }
    }
    ordered
}
