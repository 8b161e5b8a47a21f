//! The record format: the kinds, and the class of each field.
use crate::{RECORD_BYTES, STATES, SYMBOLS, VARIABLES};

/// What a field of a record may hold.
///
/// ```
/// use ropeclover::format::Class;
/// assert!(Class::Symbol.holds(63) && !Class::Symbol.holds(64));
/// assert!(Class::Unused.holds(0) && !Class::Unused.holds(1));
/// ```
#[derive(Clone, Copy, Debug, PartialEq, Eq)]
pub enum Class {
    /// A field that the kind does not use: 0.
    Unused,
    /// A variable: 0 to 31.
    Variable,
    /// A variable or a terminal: 0 to 63.
    Symbol,
    /// A state: 0 to 31.
    State,
}

impl Class {
    /// Whether a byte is in the class.
    ///
    /// ```
    /// use ropeclover::format::Class;
    /// assert!(Class::State.holds(31) && !Class::State.holds(32));
    /// ```
    pub fn holds(self, byte: u8) -> bool {
        usize::from(byte) < self.size()
    }

    /// How many numbers are in the class, from 0 on.
    fn size(self) -> usize {
        match self {
            Class::Unused => 1,
            Class::Variable => VARIABLES,
            Class::Symbol => SYMBOLS,
            Class::State => STATES,
        }
    }

    /// The numbers of the class, as a message says them.
    pub(crate) fn numbers(self) -> String {
        format!("0 to {}", self.size() - 1)
    }

    /// What the class is, as a message says it.
    ///
    /// ```
    /// use ropeclover::format::Class;
    /// assert_eq!(Class::Variable.description(), "a variable, 0 to 31");
    /// ```
    pub fn description(self) -> String {
        match self {
            Class::Unused => "unused, so 0".into(),
            Class::Variable => format!("a variable, {}", self.numbers()),
            Class::Symbol => format!("a symbol, {}", self.numbers()),
            Class::State => format!("a state, {}", self.numbers()),
        }
    }
}

/// The classes of a kind's three fields; none for a byte that is no kind.
///
/// ```
/// use ropeclover::format::{classes, Class};
/// assert_eq!(classes(b'U'), Some([Class::Variable, Class::Symbol, Class::Unused]));
/// assert_eq!(classes(b'P'), Some([Class::Variable, Class::Symbol, Class::Symbol]));
/// assert_eq!(classes(b'X'), None);
/// ```
pub fn classes(kind: u8) -> Option<[Class; 3]> {
    use Class::{State, Symbol, Unused, Variable};
    match kind {
        b'E' | b'S' => Some([Variable, Unused, Unused]),
        b'U' => Some([Variable, Symbol, Unused]),
        b'P' => Some([Variable, Symbol, Symbol]),
        b'T' => Some([State, Symbol, State]),
        b'I' | b'F' => Some([State, Unused, Unused]),
        _ => None,
    }
}

/// How many fields a kind uses, its first ones; none for a byte that is no kind.
///
/// ```
/// use ropeclover::format::used_fields;
/// assert_eq!((used_fields(b'S'), used_fields(b'U'), used_fields(b'T'), used_fields(b'X')), (Some(1), Some(2), Some(3), None));
/// ```
pub fn used_fields(kind: u8) -> Option<usize> {
    Some(classes(kind)?.iter().filter(|class| **class != Class::Unused).count())
}

/// The start symbol of a job that has an S record.
///
/// ```
/// assert_eq!(ropeclover::format::start_symbol(b"U\x03\x20\0S\x03\0\0"), Some(3));
/// assert_eq!(ropeclover::format::start_symbol(b""), None);
/// ```
pub fn start_symbol(job: &[u8]) -> Option<u8> {
    job.chunks_exact(RECORD_BYTES).find(|record| record[0] == b'S').map(|record| record[1])
}

/// The first field, 1 to 3, that is outside its class.
///
/// ```
/// use ropeclover::format::bad_field;
/// assert_eq!(bad_field([b'P', 0, 64, 99]), Some(2));
/// assert_eq!(bad_field([b'P', 0, 32, 1]), None);
/// ```
pub fn bad_field(record: [u8; 4]) -> Option<usize> {
    let classes = classes(record[0])?;
    (1..4).find(|field| !classes[field - 1].holds(record[*field]))
}
