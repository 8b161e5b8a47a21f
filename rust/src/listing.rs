//! Listing records: why the transitions of an accepted form are there.
use crate::text::Names;
use std::fmt;

/// A transition (from, symbol, to).
///
/// ```
/// use ropeclover::listing::{Record, Transition};
/// let transition: Transition = Record::from_bytes(b"\0\x20\x01G\0\0\0\0").unwrap().transition;
/// assert_eq!(transition, (0, 32, 1));
/// ```
pub type Transition = (u8, u8, u8);

/// Why a transition is there.
///
/// ```
/// use ropeclover::listing::{Reason, Record};
/// assert_eq!(Record::from_bytes(b"\0\x03\x05P\x09\x0a\x01\0").unwrap().reason, Reason::Pair(9, 10, 1));
/// ```
#[derive(Clone, Copy, Debug, PartialEq, Eq)]
pub enum Reason {
    /// A T record of the job.
    Given,
    /// A rule A → ε.
    Empty,
    /// A rule A → X.
    Unit(u8),
    /// A rule A → X Y, which meet in the middle state.
    Pair(u8, u8, u8),
}

/// One record of a listing.
///
/// ```
/// use ropeclover::{text, Workspace};
///
/// let job = text::assemble("S 0\nU 0 32\nI 0\nF 1\nT 0 32 1\n").unwrap();
/// let explanation = Workspace::new().explain(&job, &[0]).unwrap();
/// let lines: Vec<String> = explanation.records.iter().map(|record| record.to_string()).collect();
/// assert_eq!(lines, ["0 32 1 given", "0 0 1 by 0 -> 32"]);
/// ```
#[derive(Clone, Copy, Debug, PartialEq, Eq)]
pub struct Record {
    /// What is explained.
    pub transition: Transition,
    /// Why it is there.
    pub reason: Reason,
}

impl Record {
    /// Reads the 8 bytes of a record; none where they are no record.
    ///
    /// ```
    /// use ropeclover::listing::Record;
    /// assert!(Record::from_bytes(b"\0\x20\x01G\0\0\0\0").is_some());
    /// assert!(Record::from_bytes(b"\0\x20\x01G").is_none());
    /// ```
    pub fn from_bytes(bytes: &[u8]) -> Option<Record> {
        let &[from, symbol, to, kind, b, c, middle, 0] = bytes else { return None };
        let reason = match kind {
            b'G' => Reason::Given,
            b'E' => Reason::Empty,
            b'U' => Reason::Unit(b),
            b'P' => Reason::Pair(b, c, middle),
            _ => return None,
        };
        Some(Record { transition: (from, symbol, to), reason })
    }

    /// The transitions that this one follows from, in order.
    ///
    /// ```
    /// use ropeclover::listing::{Reason, Record};
    /// let record = Record { transition: (0, 3, 5), reason: Reason::Pair(9, 10, 1) };
    /// assert_eq!(record.premises(), [(0, 9, 1), (1, 10, 5)]);
    /// ```
    pub fn premises(&self) -> Vec<Transition> {
        let (from, _, to) = self.transition;
        match self.reason {
            Reason::Given | Reason::Empty => vec![],
            Reason::Unit(x) => vec![(from, x, to)],
            Reason::Pair(b, c, middle) => vec![(from, b, middle), (middle, c, to)],
        }
    }

    /// The record's line with names.
    ///
    /// ```
    /// use ropeclover::listing::{Reason, Record};
    /// let names = ropeclover::text::read("name 0 go\nname 32 \"G\"\n").unwrap().names;
    /// let record = Record { transition: (0, 0, 1), reason: Reason::Unit(32) };
    /// assert_eq!(record.named(&names).to_string(), "0 go 1 by go -> \"G\"");
    /// ```
    pub fn named<'a>(&'a self, names: &'a Names) -> Named<'a> {
        Named { record: self, names }
    }
}

/// A record and the names to print it with; see [`Record::named`].
///
/// ```
/// use ropeclover::listing::{Named, Reason, Record};
/// let (record, names) = (Record { transition: (1, 0, 1), reason: Reason::Empty }, Default::default());
/// let named: Named<'_> = record.named(&names);
/// assert_eq!(named.to_string(), "1 0 1 by 0 -> empty");
/// ```
#[derive(Clone, Copy, Debug)]
pub struct Named<'a> {
    record: &'a Record,
    names: &'a Names,
}

/// One readable line: the transition, then why.
impl fmt::Display for Named<'_> {
    fn fmt(&self, f: &mut fmt::Formatter<'_>) -> fmt::Result {
        let (from, symbol, to) = self.record.transition;
        let (state, name) = (|q| self.names.state(q), |x| self.names.symbol(x));
        write!(f, "{} {} {} ", state(from), name(symbol), state(to))?;
        match self.record.reason {
            Reason::Given => write!(f, "given"),
            Reason::Empty => write!(f, "by {} -> empty", name(symbol)),
            Reason::Unit(x) => write!(f, "by {} -> {}", name(symbol), name(x)),
            Reason::Pair(b, c, middle) => {
                write!(f, "by {} -> {} {} at {}", name(symbol), name(b), name(c), state(middle))
            }
        }
    }
}

impl fmt::Display for Record {
    fn fmt(&self, f: &mut fmt::Formatter<'_>) -> fmt::Result {
        self.named(&Names::default()).fmt(f)
    }
}
