//! Refused calls.
mod message;
mod operation;

use crate::LONG_JOB_BYTES;
pub use operation::{Buffer, Operation};

/// Where a refused record stands in its job.
///
/// ```
/// use ropeclover::{Operation, Refusal};
/// let Refusal::UnknownKind { place } = Refusal::of(Operation::Binarize, 3, 7) else { panic!() };
/// assert_eq!((place.number(), place.record(), place.offset()), (7, 7, 84));
/// ```
#[derive(Clone, Copy, Debug, PartialEq, Eq, Hash)]
pub struct Place {
    number: u64,
    /// The length of a record of this job.
    record_bytes: usize,
}

impl Place {
    /// The place as the library gives it.
    pub fn number(self) -> u64 {
        self.number
    }

    /// The record's number, from 0.
    pub fn record(self) -> usize {
        usize::try_from(self.number).unwrap_or(usize::MAX)
    }

    /// The offset of the record's first byte in the job.
    pub fn offset(self) -> usize {
        self.record().saturating_mul(self.record_bytes)
    }
}

/// Why a call is refused, and where. Each refusal has a number and a place, which the C interface and the command give.
///
/// ```
/// use ropeclover::{text, Refusal, Workspace};
///
/// let job = text::assemble("S 0\nI 0\nT 0 64 0\n").unwrap();
/// let refusal = Workspace::new().report(&job).unwrap_err();
/// assert!(matches!(refusal, Refusal::FieldOutsideClass { place } if place.record() == 2));
/// assert_eq!((refusal.number(), refusal.place()), (4, 2));
/// assert!(refusal.to_string().starts_with("record 2 has a field outside its class"));
/// ```
#[derive(Clone, Copy, Debug, PartialEq, Eq, Hash)]
#[non_exhaustive]
pub enum Refusal {
    /// 1: the job's length is no multiple of 4.
    PartialRecord {
        /// The whole records before the bytes left over.
        records: u64,
    },
    /// 2: the job has over [`JOB_BYTES`](crate::JOB_BYTES) bytes.
    JobTooLong {
        /// The job's length.
        bytes: u64,
    },
    /// 3: an unknown kind byte.
    UnknownKind {
        /// Where the record stands.
        place: Place,
    },
    /// 4: a field outside its class.
    FieldOutsideClass {
        /// Where the record stands.
        place: Place,
    },
    /// 5: the same four bytes stand in an earlier record.
    Repeated {
        /// Where the later record stands.
        place: Place,
    },
    /// 6: a second S or a second I.
    Second {
        /// Where the second one stands.
        place: Place,
    },
    /// 7: the rule after the last that is taken.
    TooManyRules {
        /// Where the record stands.
        place: Place,
        /// The most rules that are taken.
        most: usize,
    },
    /// 8: no S record.
    NoStart {
        /// The number of records.
        records: u64,
    },
    /// 9: no I record.
    NoInitial {
        /// The number of records.
        records: u64,
    },
    /// 10: a lent buffer is short.
    ShortBuffer(Buffer),
    /// 11: a byte of the form is no symbol.
    NoSymbol {
        /// Its position in the form, from 0.
        position: u64,
    },
    /// 12: the form has over [`FORM_SYMBOLS`](crate::FORM_SYMBOLS) symbols.
    FormTooLong {
        /// Its length.
        symbols: u64,
    },
    /// 13: the lent listing is too short.
    ListingTooShort {
        /// The listing records needed, 8 bytes each.
        records: u64,
    },
    /// 14: a record of a long job takes more variables than are free.
    TooFewVariables {
        /// Where the record stands.
        place: Place,
    },
    /// 15: in a long job, a length over [`BODY_SYMBOLS`](crate::BODY_SYMBOLS), or a padding or closing byte that is not zero.
    IllPadded {
        /// Where the record stands.
        place: Place,
    },
    /// 1, of a long job: its length is no multiple of 12.
    PartialLongRecord {
        /// The whole records before the bytes left over.
        records: u64,
    },
    /// 2, of a long job: it has over [`LONG_JOB_BYTES`](crate::LONG_JOB_BYTES) bytes.
    LongJobTooLong {
        /// Its length.
        bytes: u64,
    },
    /// 2, of a long job: the job written has over [`JOB_BYTES`](crate::JOB_BYTES) bytes.
    WrittenTooLong {
        /// The length of the job written.
        bytes: u64,
    },
    /// 5, of a long job: a record is written that stands already among those written.
    WrittenTwice {
        /// Where the record stands that it is written for.
        place: Place,
    },
    /// 7, of a long job: the rule after the last that is taken is written.
    TooManyWritten {
        /// Where the record stands that it is written for.
        place: Place,
        /// The most rules that are taken.
        most: usize,
    },
    /// 13, by [`binarize`](crate::binarize), [`clean`](crate::clean) and [`read_abnf`](crate::read_abnf): the job written does not fit into the lent
    /// buffer.
    JobTooShort {
        /// The records needed, 4 bytes each.
        records: u64,
    },
    /// 2, of a text: it has over [`ABNF_BYTES`](crate::ABNF_BYTES) bytes.
    TextTooLong {
        /// Its length.
        bytes: u64,
    },
    /// 16: the text leaves the part of ABNF that is read.
    OutsideAbnf {
        /// The offset of the first byte outside it.
        offset: u64,
    },
    /// 17: a name has no rule, or has `=/` and no `=` above it, or `=` and one above.
    NameOutOfPlace {
        /// The offset of the name's first byte.
        offset: u64,
    },
    /// 18, place 1: the names, letters and tails of a text take over [`VARIABLES`](crate::VARIABLES) variables.
    TooManyVariables,
    /// 18, place 2: a text uses over 32 characters, both cases of a letter in a quoted string included.
    TooManyCharacters,
    /// 7, of a text: it takes more rules than a job may have.
    TooManyRulesRead {
        /// The number, from 1, of the rule after the last that is taken.
        rule: u64,
    },
    /// A number that this version of the crate has no name for.
    Other {
        /// The number.
        number: u64,
        /// The place.
        place: u64,
    },
}

impl Refusal {
    /// The refusal of a number and a place by an operation.
    ///
    /// ```
    /// use ropeclover::{Buffer, Operation, Refusal};
    /// assert_eq!(Refusal::of(Operation::Table, 8, 0), Refusal::NoStart { records: 0 });
    /// assert_eq!(Refusal::of(Operation::Bits, 10, 1), Refusal::ShortBuffer(Buffer::Bits));
    /// assert_eq!(Refusal::of(Operation::Binarize, 2, 49_164), Refusal::LongJobTooLong { bytes: 49_164 });
    /// assert_eq!(Refusal::of(Operation::Binarize, 2, 16_388), Refusal::WrittenTooLong { bytes: 16_388 });
    /// ```
    pub fn of(operation: Operation, number: u64, place: u64) -> Self {
        use Operation::{Binarize, Clean, ReadAbnf};
        let (at, most) = (Place { number: place, record_bytes: operation.record_bytes() }, operation.rules());
        match (number, operation) {
            (1, Binarize) => Refusal::PartialLongRecord { records: place },
            (1, _) => Refusal::PartialRecord { records: place },
            // What is written for an accepted long job is far shorter than the longest one.
            (2, Binarize) if place > LONG_JOB_BYTES as u64 => Refusal::LongJobTooLong { bytes: place },
            (2, Binarize) => Refusal::WrittenTooLong { bytes: place },
            (2, ReadAbnf) => Refusal::TextTooLong { bytes: place },
            (2, _) => Refusal::JobTooLong { bytes: place },
            (3, _) => Refusal::UnknownKind { place: at },
            (4, _) => Refusal::FieldOutsideClass { place: at },
            (5, Binarize) => Refusal::WrittenTwice { place: at },
            (5, _) => Refusal::Repeated { place: at },
            (6, _) => Refusal::Second { place: at },
            (7, Binarize) => Refusal::TooManyWritten { place: at, most },
            (7, ReadAbnf) => Refusal::TooManyRulesRead { rule: place },
            (7, _) => Refusal::TooManyRules { place: at, most },
            (8, _) => Refusal::NoStart { records: place },
            (9, _) => Refusal::NoInitial { records: place },
            (10, _) => operation.buffer(place).map_or(Refusal::Other { number, place }, Refusal::ShortBuffer),
            (11, _) => Refusal::NoSymbol { position: place },
            (12, _) => Refusal::FormTooLong { symbols: place },
            (13, Binarize | Clean | ReadAbnf) => Refusal::JobTooShort { records: place },
            (13, _) => Refusal::ListingTooShort { records: place },
            (14, _) => Refusal::TooFewVariables { place: at },
            (15, _) => Refusal::IllPadded { place: at },
            (16, _) => Refusal::OutsideAbnf { offset: place },
            (17, _) => Refusal::NameOutOfPlace { offset: place },
            (18, _) if place == 1 => Refusal::TooManyVariables,
            (18, _) if place == 2 => Refusal::TooManyCharacters,
            _ => Refusal::Other { number, place },
        }
    }

    /// The number and the place.
    fn parts(self) -> (u64, u64) {
        match self {
            Refusal::PartialRecord { records } | Refusal::PartialLongRecord { records } => (1, records),
            Refusal::JobTooLong { bytes }
            | Refusal::LongJobTooLong { bytes }
            | Refusal::WrittenTooLong { bytes }
            | Refusal::TextTooLong { bytes } => (2, bytes),
            Refusal::UnknownKind { place } => (3, place.number),
            Refusal::FieldOutsideClass { place } => (4, place.number),
            Refusal::Repeated { place } | Refusal::WrittenTwice { place } => (5, place.number),
            Refusal::Second { place } => (6, place.number),
            Refusal::TooManyRules { place, .. } | Refusal::TooManyWritten { place, .. } => (7, place.number),
            Refusal::TooManyRulesRead { rule } => (7, rule),
            Refusal::NoStart { records } => (8, records),
            Refusal::NoInitial { records } => (9, records),
            Refusal::ShortBuffer(Buffer::Table | Buffer::Bits) => (10, 1),
            Refusal::ShortBuffer(Buffer::Reasons) => (10, 2),
            Refusal::ShortBuffer(Buffer::Codes | Buffer::Map) => (10, 3),
            Refusal::NoSymbol { position } => (11, position),
            Refusal::FormTooLong { symbols } => (12, symbols),
            Refusal::ListingTooShort { records } | Refusal::JobTooShort { records } => (13, records),
            Refusal::TooFewVariables { place } => (14, place.number),
            Refusal::IllPadded { place } => (15, place.number),
            Refusal::OutsideAbnf { offset } => (16, offset),
            Refusal::NameOutOfPlace { offset } => (17, offset),
            Refusal::TooManyVariables => (18, 1),
            Refusal::TooManyCharacters => (18, 2),
            Refusal::Other { number, place } => (number, place),
        }
    }

    /// The number, as in the C header.
    ///
    /// ```
    /// use ropeclover::Refusal;
    /// assert_eq!(Refusal::NoStart { records: 3 }.number(), 8);
    /// ```
    pub fn number(self) -> u64 {
        self.parts().0
    }

    /// The place: a record, a position, an offset, a length, a count or a buffer, by the number.
    ///
    /// ```
    /// use ropeclover::Refusal;
    /// assert_eq!(Refusal::FormTooLong { symbols: 65 }.place(), 65);
    /// ```
    pub fn place(self) -> u64 {
        self.parts().1
    }

    /// The number, from 0, of the record that is refused, by 3 to 7, 14 and 15; 7 of a text is of none.
    ///
    /// ```
    /// use ropeclover::{Operation, Refusal};
    /// assert_eq!(Refusal::of(Operation::Table, 3, 7).record(), Some(7));
    /// assert_eq!(Refusal::of(Operation::Table, 8, 7).record(), None);
    /// ```
    pub fn record(self) -> Option<usize> {
        self.record_place().map(Place::record)
    }

    /// Where the record stands that is refused, by 3 to 7, 14 and 15; 7 of a text is of none.
    ///
    /// ```
    /// use ropeclover::{Operation, Refusal};
    /// assert_eq!(Refusal::of(Operation::Table, 4, 7).record_place().unwrap().offset(), 28);
    /// assert_eq!(Refusal::of(Operation::Table, 8, 7).record_place(), None);
    /// ```
    pub fn record_place(self) -> Option<Place> {
        match self {
            Refusal::UnknownKind { place }
            | Refusal::FieldOutsideClass { place }
            | Refusal::Repeated { place }
            | Refusal::WrittenTwice { place }
            | Refusal::Second { place }
            | Refusal::TooManyRules { place, .. }
            | Refusal::TooManyWritten { place, .. }
            | Refusal::TooFewVariables { place }
            | Refusal::IllPadded { place } => Some(place),
            _ => None,
        }
    }
}

impl std::error::Error for Refusal {}
