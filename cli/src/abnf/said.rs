//! What an ABNF text says, line by line: for messages about texts that the library has found to be of the part.
use super::pieces::{pieces, Kind, Stage};
use std::ops::Range;

/// A rule, by the places of what it says.
pub struct Line {
    pub name: Range<usize>,
    /// Whether its mark is `=/`.
    pub adds: bool,
    pub alternatives: Vec<Alternative>,
}

/// The elements of an alternative: names and literals.
#[derive(Default)]
pub struct Alternative(pub Vec<(Kind, Range<usize>)>);

impl Alternative {
    /// From the first element to the last.
    pub fn place(&self) -> Range<usize> {
        let (first, last) = (self.0.first(), self.0.last());
        first.map_or(0, |(_, place)| place.start)..last.map_or(0, |(_, place)| place.end)
    }
}

/// The lines of a text.
pub fn lines(text: &[u8]) -> Vec<Line> {
    let mut lines: Vec<Line> = Vec::new();
    for piece in pieces(text) {
        if piece.stage == Stage::LineStart {
            lines.push(Line { name: piece.place, adds: false, alternatives: Vec::new() });
            continue;
        }
        let Some(line) = lines.last_mut() else { break };
        match piece.kind {
            Kind::Mark => {
                line.adds = piece.place.len() > 1;
                line.alternatives.push(Alternative::default());
            }
            Kind::Slash => line.alternatives.push(Alternative::default()),
            Kind::Name | Kind::Literal => {
                if let Some(alternative) = line.alternatives.last_mut() {
                    alternative.0.push((piece.kind, piece.place));
                }
            }
            Kind::Blanks | Kind::Comment | Kind::LineEnd => {}
        }
    }
    lines
}

/// A name of a text, which is the same in either case.
pub fn lower(text: &[u8], name: &Range<usize>) -> String {
    String::from_utf8_lossy(&text[name.clone()]).to_ascii_lowercase()
}

/// A character, and whether either case of it serves.
pub type Character = (u8, bool);

/// The characters of a literal.
pub fn characters(literal: &[u8]) -> Vec<Character> {
    match literal {
        [b'"', string @ .., b'"'] => string.iter().map(|byte| (*byte, byte.is_ascii_alphabetic())).collect(),
        [_, _, digits @ ..] => {
            let value = |digits: &[u8]| u8::from_str_radix(std::str::from_utf8(digits).ok()?, 16).ok();
            let numbers = digits.split(|byte| *byte == b'.').map(|digits| value(digits).unwrap_or(0));
            numbers.map(|number| (number, false)).collect()
        }
        _ => Vec::new(),
    }
}
