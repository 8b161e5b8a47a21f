//! The pieces of ABNF text, and what may follow them. This serves messages alone: which texts are read, and where another is refused, is the library's to
//! say.
use std::ops::Range;

#[derive(Clone, Copy, Debug, PartialEq, Eq)]
pub enum Kind {
    Name,
    /// `=` or `=/`.
    Mark,
    Slash,
    Blanks,
    /// A string in quotes or a value.
    Literal,
    Comment,
    LineEnd,
}

#[derive(Clone, Debug)]
pub struct Piece {
    pub kind: Kind,
    pub place: Range<usize>,
    /// How far the line was read before it.
    pub stage: Stage,
}

/// How far a line is read.
#[derive(Clone, Copy, Debug, PartialEq, Eq)]
pub enum Stage {
    /// Nothing of it.
    LineStart,
    /// The rule's name.
    Named,
    /// Up to where an element is due: the mark or a slash.
    Open,
    /// An element.
    Filled,
    /// An element and blanks.
    Spaced,
    /// A comment.
    Noted,
}

impl Stage {
    /// How far the line is read with one more piece; none where that may not stand there.
    fn after(self, kind: Kind) -> Option<Stage> {
        use Stage::{Filled, LineStart, Named, Noted, Open, Spaced};
        match (self, kind) {
            (LineStart, Kind::Name) | (Named, Kind::Blanks) => Some(Named),
            (Named, Kind::Mark) | (Open, Kind::Blanks) | (Filled | Spaced, Kind::Slash) => Some(Open),
            (Open | Spaced, Kind::Name | Kind::Literal) => Some(Filled),
            (Filled, Kind::Blanks) => Some(Spaced),
            (Filled | Spaced, Kind::Comment) => Some(Noted),
            (Filled | Spaced | Noted, Kind::LineEnd) => Some(LineStart),
            _ => None,
        }
    }

    /// What may stand there, in words.
    pub fn allowed(self) -> &'static str {
        match self {
            Stage::LineStart => "a line begins with the name of a rule: a letter, then letters, digits and dashes",
            Stage::Named => "here may stand = or =/, with blanks before it",
            Stage::Open => "here may stand an element: a name, a string in quotes, or a value as %x41 or %x41.42",
            Stage::Filled => "here may stand a slash, a comment, the line end, or a blank and then an element",
            Stage::Spaced => "here may stand an element, a slash, a comment or the line end",
            Stage::Noted => "here may stand a blank, a tab, a visible character or the line end",
        }
    }
}

fn is_of_name(byte: u8) -> bool {
    byte.is_ascii_alphanumeric() || byte == b'-'
}

/// How many bytes pass a test, up to the first that does not.
fn span(text: &[u8], test: impl Fn(u8) -> bool) -> usize {
    text.iter().take_while(|byte| test(**byte)).count()
}

/// The length of the value that a text begins with: the digits behind %x, and the dots that a digit follows.
fn value_length(text: &[u8]) -> usize {
    let is_digit = |at: usize| text.get(at).is_some_and(u8::is_ascii_hexdigit);
    let goes_on = |at: &usize| is_digit(*at) || (text.get(*at) == Some(&b'.') && is_digit(at + 1));
    2 + (2..).take_while(goes_on).count()
}

/// The kind and the length of the piece that a text begins with, if it is one of a line that the library reads.
fn first(text: &[u8]) -> Option<(Kind, usize)> {
    match text {
        [byte, ..] if byte.is_ascii_alphabetic() => Some((Kind::Name, span(text, is_of_name))),
        [b' ' | b'\t', ..] => Some((Kind::Blanks, span(text, |byte| matches!(byte, b' ' | b'\t')))),
        [b'=', b'/', ..] => Some((Kind::Mark, 2)),
        [b'=', ..] => Some((Kind::Mark, 1)),
        [b'/', ..] => Some((Kind::Slash, 1)),
        [b';', ..] => Some((Kind::Comment, span(text, |byte| matches!(byte, b'\t' | b' '..=b'~')))),
        [b'"', string @ ..] => Some((Kind::Literal, 2 + string.iter().position(|byte| *byte == b'"')?)),
        [b'%', b'x' | b'X', ..] => Some((Kind::Literal, value_length(text))),
        [b'\r', b'\n', ..] => Some((Kind::LineEnd, 2)),
        [b'\n', ..] => Some((Kind::LineEnd, 1)),
        _ => None,
    }
}

/// The pieces of a text from its start on, as far as they follow each other.
pub fn pieces(text: &[u8]) -> impl Iterator<Item = Piece> + '_ {
    let (mut at, mut stage) = (0, Stage::LineStart);
    std::iter::from_fn(move || {
        let (kind, length) = first(&text[at..])?;
        let piece = Piece { kind, place: at..at + length, stage };
        stage = stage.after(kind)?;
        at += length;
        Some(piece)
    })
}

/// How far the line is read at an offset that the library gives; none where pieces do not end there.
pub fn stage_at(text: &[u8], offset: usize) -> Option<Stage> {
    let last = pieces(text).take_while(|piece| piece.place.end <= offset).last();
    match last {
        None => (offset == 0).then_some(Stage::LineStart),
        Some(piece) if piece.place.end == offset => piece.stage.after(piece.kind),
        Some(_) => None,
    }
}
