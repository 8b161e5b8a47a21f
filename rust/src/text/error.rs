//! What is wrong with a text, and where.
use super::words::{plain, NAME_CHARACTERS};
use crate::format::Class;
use std::fmt;

/// A part of a line.
///
/// ```
/// use ropeclover::text::read;
/// let span = read("S 0\nU 0 x\n").unwrap_err()[0].span;
/// assert_eq!((span.line, span.start, span.end), (2, 4, 5));
/// ```
#[derive(Clone, Copy, Debug, PartialEq, Eq)]
pub struct Span {
    /// The line, from 1.
    pub line: usize,
    /// The first byte's offset in the line.
    pub start: usize,
    /// The offset behind the last byte.
    pub end: usize,
}

/// What is wrong.
///
/// ```
/// use ropeclover::text::{read, Problem};
/// assert_eq!(read("name 64 x\n").unwrap_err()[0].problem, Problem::NoSymbol);
/// ```
#[derive(Clone, Debug, PartialEq, Eq)]
#[non_exhaustive]
pub enum Problem {
    /// A line begins with a word that is no kind, `name`, `state` or `form`.
    NoKind(String),
    /// A record has fewer or more fields than its kind uses, or a letter that is no kind has more than three.
    FieldNumber {
        /// The letter.
        kind: u8,
        /// How many fields it has.
        fields: usize,
    },
    /// The body of an L record has more than eight symbols.
    BodyTooLong(usize),
    /// A field is no number of one byte and no name of its class.
    NoField(String, Option<Class>),
    /// A string does not end on its line.
    OpenString,
    /// A name line has not two words after its first.
    NameWords(usize),
    /// A word cannot be a name.
    NoName(String),
    /// The number in a `name` line is no symbol.
    NoSymbol,
    /// The number in a `state` line is no state.
    NoState,
    /// A form line has no word after its first.
    FormWords,
    /// A word of a form line is no symbol.
    NoForm(UnknownSymbol),
    /// The number has a name already.
    NamedAlready(Span),
    /// The name stands for another number already.
    NameTaken(Span),
}

impl fmt::Display for Problem {
    fn fmt(&self, f: &mut fmt::Formatter<'_>) -> fmt::Result {
        match self {
            Problem::NoKind(word) => {
                write!(f, "'{}' is no kind of record (one letter), nor 'name', 'state' or 'form'", plain(word))
            }
            Problem::FieldNumber { kind, fields } => field_number(f, *kind, *fields),
            Problem::BodyTooLong(symbols) => write!(f, "a body has at most eight symbols, not {symbols}"),
            Problem::NoField(word, class) => no_field(f, word, *class),
            Problem::OpenString => write!(f, "this string has no closing quote on its line"),
            Problem::NameWords(words) => {
                write!(f, "a number and a name are due here, not {words} word{}", if *words == 1 { "" } else { "s" })
            }
            Problem::NoName(word) => write!(
                f,
                "'{}' is no name: a letter and then letters, digits, '_', '-' and '.', or a string in quotes, at most {NAME_CHARACTERS} characters",
                plain(word)
            ),
            Problem::NoSymbol => write!(f, "a symbol is a number from {}", Class::Symbol.numbers()),
            Problem::NoState => write!(f, "a state is a number from {}", Class::State.numbers()),
            Problem::FormWords => write!(f, "a form is due here; \"\" is the empty one"),
            Problem::NoForm(unknown) => unknown.fmt(f),
            Problem::NamedAlready(earlier) => write!(f, "this number has a name already, from line {}", earlier.line),
            Problem::NameTaken(earlier) => write!(f, "this name is taken already, in line {}", earlier.line),
        }
    }
}

fn field_number(f: &mut fmt::Formatter<'_>, kind: u8, fields: usize) -> fmt::Result {
    let due = match kind {
        b'E' | b'S' => "1 field, a variable",
        b'I' | b'F' => "1 field, a state",
        b'U' => "2 fields, a variable and a symbol",
        b'P' => "3 fields, a variable and two symbols",
        b'T' => "3 fields, a state, a symbol and a state",
        b'L' => "1 to 9 fields, a variable and up to eight symbols",
        _ => return write!(f, "a record has at most 3 fields, not {fields}"),
    };
    let article = if b"UPT".contains(&kind) { "a" } else { "an" };
    write!(f, "{article} {} record has {due}, not {fields}", char::from(kind))
}

fn no_field(f: &mut fmt::Formatter<'_>, word: &str, class: Option<Class>) -> fmt::Result {
    let (what, class) = match class {
        Some(Class::Unused) | None => return write!(f, "'{}' is no number from 0 to {}", plain(word), u8::MAX),
        Some(class @ Class::Variable) => ("variable", class),
        Some(class @ Class::Symbol) => ("symbol", class),
        Some(class @ Class::State) => ("state", class),
    };
    write!(f, "'{}' is no {what}: neither the name of one nor a number from {}", plain(word), class.numbers())
}

/// A part of a text that is no part of the format.
///
/// ```
/// use ropeclover::text::read;
/// let errors = read("name 0 a\nname 1 a\nE a\nP a 2\n").unwrap_err();
/// let messages: Vec<String> = errors.iter().map(|error| error.to_string()).collect();
/// assert_eq!(messages[0], "line 2: this name is taken already, in line 1");
/// assert_eq!(messages[1], "line 4: a P record has 3 fields, a variable and two symbols, not 2");
/// ```
#[derive(Clone, Debug, PartialEq, Eq)]
pub struct TextError {
    /// Where.
    pub span: Span,
    /// What.
    pub problem: Problem,
}

impl fmt::Display for TextError {
    fn fmt(&self, f: &mut fmt::Formatter<'_>) -> fmt::Result {
        write!(f, "line {}: {}", self.span.line, self.problem)
    }
}

impl std::error::Error for TextError {}

/// A word or a character of a form that is no symbol.
///
/// ```
/// use ropeclover::text::{Names, UnknownSymbol};
/// assert_eq!(Names::default().form("#1 tone"), Err(UnknownSymbol::Word("tone".into())));
/// assert_eq!(Names::default().form("\"x\""), Err(UnknownSymbol::Character('x')));
/// ```
#[derive(Clone, Debug, PartialEq, Eq)]
#[non_exhaustive]
pub enum UnknownSymbol {
    /// A word that is no name and no number, or a string that does not end.
    Word(String),
    /// A character that no name is, and no name's ranges hold.
    Character(char),
    /// A character that the ranges of two names hold.
    Several(char, String, String),
}

impl fmt::Display for UnknownSymbol {
    fn fmt(&self, f: &mut fmt::Formatter<'_>) -> fmt::Result {
        match self {
            UnknownSymbol::Word(word) => {
                let numbers = Class::Symbol.numbers();
                write!(f, "'{}' is no symbol: neither a name nor a number from {numbers}", plain(word))
            }
            UnknownSymbol::Character(character) => {
                let character = plain(&character.to_string());
                write!(f, "'{character}' is no symbol: no character is named so, and no range holds it")
            }
            UnknownSymbol::Several(character, one, other) => {
                write!(f, "'{character}' may be {one} or {other}, which both hold it")
            }
        }
    }
}

impl std::error::Error for UnknownSymbol {}
