//! What is told of a refused ABNF text, and where.
use super::needs::Needs;
use super::{limits, names, outside, Abnf};
use crate::quote::Mark;
use ropeclover::{Refusal, ABNF_BYTES};
use std::ops::Range;

/// A part of the text, and what is said of it.
type Part = (Range<usize>, String);

/// A message, with what it says of parts of the text.
#[derive(Default)]
pub struct Told {
    pub headline: String,
    /// The part that it is about.
    part: Option<Part>,
    /// Another part that this goes with.
    other: Option<Part>,
    pub notes: Vec<String>,
    /// The name that may have been meant.
    pub suggestion: Option<String>,
}

/// The line and the column of an offset, from 0.
fn position(file: &[u8], offset: usize) -> (usize, usize) {
    let before = &file[..offset.min(file.len())];
    let start = before.iter().rposition(|byte| *byte == b'\n').map_or(0, |at| at + 1);
    (before.iter().filter(|byte| **byte == b'\n').count(), before.len() - start)
}

impl Told {
    pub fn new(headline: impl Into<String>) -> Self {
        Told { headline: headline.into(), ..Told::default() }
    }

    /// Says something of the part that the message is about.
    pub fn at(self, place: Range<usize>, message: impl Into<String>) -> Self {
        Told { part: Some((place, message.into())), ..self }
    }

    /// Says something of another part.
    pub fn with(self, place: Range<usize>, message: impl Into<String>) -> Self {
        Told { other: Some((place, message.into())), ..self }
    }

    pub fn noting(mut self, note: impl Into<String>) -> Self {
        self.notes.push(note.into());
        self
    }

    /// The message on one line.
    pub fn message(&self) -> String {
        match &self.part {
            Some((_, message)) if !message.is_empty() => format!("{}; {message}", self.headline),
            _ => self.headline.clone(),
        }
    }

    /// The line and the column, from 1, of the part that it is about.
    pub fn position(&self, file: &[u8]) -> Option<(usize, usize)> {
        let (line, column) = position(file, self.part.as_ref()?.0.start);
        Some((line + 1, column + 1))
    }

    /// The marks in the lines of the file.
    pub fn marks(&self, file: &[u8]) -> Vec<Mark> {
        let mark = |(place, message): &Part, mark: fn(usize, usize, usize, String) -> Mark| {
            let (line, start) = position(file, place.start);
            mark(line, start, start + place.len(), message.clone())
        };
        let part = self.part.iter().map(|part| mark(part, Mark::primary));
        part.chain(self.other.iter().map(|part| mark(part, Mark::secondary))).collect()
    }
}

/// What is told of a text that is too long. Only so much of the file is read as tells it.
fn too_long(file: &[u8], bytes: u64) -> Told {
    Told::new(match file.len() > ABNF_BYTES {
        true => format!("the text has more than {ABNF_BYTES} bytes"),
        false => format!("with CRLF at each line end the text has {bytes} bytes; at most {ABNF_BYTES} are taken"),
    })
}

/// What is told where an automaton is needed, which ABNF text does not have.
fn without_word() -> Told {
    let told = Told::new("ABNF text has no automaton; --word TEXT gives it one, which reads that word alone");
    told.noting("as in --word 'FA;', or --word 'FA%x0D' where a character cannot be typed")
}

/// What is told of a refused ABNF text; none where the text is read, so that the refusal is about something else.
pub fn told(refusal: Refusal, abnf: &Abnf) -> Option<Told> {
    let file = &abnf.file;
    Some(match refusal {
        Refusal::NoInitial { .. } if abnf.grammar.is_some() => without_word(),
        _ if abnf.grammar.is_some() => return None,
        Refusal::TextTooLong { bytes } => too_long(file, bytes),
        Refusal::OutsideAbnf { offset } => outside::told(file, offset as usize),
        Refusal::NameOutOfPlace { offset } => names::told(file, offset as usize),
        Refusal::TooManyVariables => limits::variables(&Needs::of(file)),
        Refusal::TooManyCharacters => limits::characters(&Needs::of(file)),
        Refusal::TooManyRulesRead { .. } => limits::rules(&Needs::of(file)),
        other => Told::new(other.to_string()),
    })
}
