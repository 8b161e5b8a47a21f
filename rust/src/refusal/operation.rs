//! What may be refused: operations, and the buffers that they are lent.
use crate::{LONG_RECORD_BYTES, RECORD_BYTES, RULES};

/// What is called, so far as the meaning of a refusal depends on it.
///
/// ```
/// use ropeclover::{Operation, Refusal};
/// assert_eq!(Refusal::of(Operation::Table, 13, 2), Refusal::ListingTooShort { records: 2 });
/// assert_eq!(Refusal::of(Operation::Clean, 13, 2), Refusal::JobTooShort { records: 2 });
/// ```
#[derive(Clone, Copy, Debug, PartialEq, Eq, Hash)]
#[non_exhaustive]
pub enum Operation {
    /// A function on a table of bytes: [`start`](crate::start), [`advance`](crate::advance), [`ask`](crate::ask), [`explain`](crate::explain) or
    /// [`verdicts`](crate::verdicts).
    Table,
    /// A function on a bit table, one of the module [`bits`](crate::bits).
    Bits,
    /// [`binarize`](crate::binarize), which reads a long job.
    Binarize,
    /// [`clean`](crate::clean).
    Clean,
    /// [`read_abnf`](crate::read_abnf), which reads a text.
    ReadAbnf,
}

impl Operation {
    /// The length of a record that it reads, in bytes.
    pub(super) fn record_bytes(self) -> usize {
        match self {
            Operation::Binarize => LONG_RECORD_BYTES,
            Operation::Table | Operation::Bits | Operation::Clean | Operation::ReadAbnf => RECORD_BYTES,
        }
    }

    /// The most rules that it takes.
    pub(super) fn rules(self) -> usize {
        match self {
            Operation::Table | Operation::Bits | Operation::Binarize | Operation::Clean | Operation::ReadAbnf => RULES,
        }
    }

    /// The lent buffer that refusal 10 means by a place.
    pub(super) fn buffer(self, place: u64) -> Option<Buffer> {
        match (place, self) {
            (1, Operation::Bits) => Some(Buffer::Bits),
            (1, _) => Some(Buffer::Table),
            (2, _) => Some(Buffer::Reasons),
            (3, Operation::ReadAbnf) => Some(Buffer::Map),
            (3, _) => Some(Buffer::Codes),
            _ => None,
        }
    }
}

/// A lent buffer that may be short.
///
/// ```
/// use ropeclover::{start, Buffer, Refusal, REASONS};
///
/// let refusal = start(b"", &mut [0; 100], &mut [0; REASONS]).unwrap_err();
/// assert_eq!(refusal, Refusal::ShortBuffer(Buffer::Table));
/// ```
#[derive(Clone, Copy, Debug, PartialEq, Eq, Hash)]
pub enum Buffer {
    /// The table, [`TABLE_BYTES`](crate::TABLE_BYTES) long.
    Table,
    /// The bit table, [`BIT_TABLE_BYTES`](crate::BIT_TABLE_BYTES) long.
    Bits,
    /// The reasons, [`REASONS`](crate::REASONS) numbers.
    Reasons,
    /// The codes, [`CODES`](crate::CODES) long.
    Codes,
    /// The map of characters, [`MAP_BYTES`](crate::MAP_BYTES) long.
    Map,
}
