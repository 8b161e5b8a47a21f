//! The library's functions on a bit table: two bits for each transition in place of a byte, so a quarter of the memory.
//!
//! ```
//! use ropeclover::{bits, BIT_TABLE_BYTES, REASONS};
//!
//! let job = ropeclover::text::assemble("S 0\nU 0 32\nI 0\nF 1\nT 0 32 1\n").unwrap();
//! let (mut table, mut reasons) = (vec![0; BIT_TABLE_BYTES], vec![0; REASONS]);
//! bits::start(&job, &mut table, &mut reasons).unwrap();
//! while !bits::advance(&job, &mut table, &mut reasons, 100).unwrap().finished {}
//! assert!(bits::ask(&job, &table, &[0]).unwrap());
//! assert_eq!(bits::done_count(&table), Ok(2));
//! ```
use crate::calls::{advanced, answered};
use crate::{ffi, Advanced, Operation, Refusal};

/// Writes the bit table and the reasons that the job starts from, and returns its number of states.
///
/// A bit table has a bit for pending and a bit for done of each transition (q, X, r), in two halves of [`HALF_BYTES`](crate::HALF_BYTES), the
/// pending half first: of place p = q · 2048 + X · 32 + r, bit p % 8 of byte p / 8 of each. A transition is done if its done bit is set, pending if
/// only its pending bit is, absent if neither is. One with both bits is never taken by a step, and keeps both.
///
/// From a start, after any number of steps, it says of each transition what the table of [`start`](crate::start) and [`advance`](crate::advance)
/// says; reasons and answers are equal.
///
/// ```
/// use ropeclover::{BIT_TABLE_BYTES, REASONS};
///
/// let job = ropeclover::text::assemble("S 0\nU 0 32\nI 0\nF 1\nT 0 32 1\n").unwrap();
/// let (mut bits, mut reasons) = (vec![0; BIT_TABLE_BYTES], vec![0; REASONS]);
/// assert_eq!(ropeclover::bits::start(&job, &mut bits, &mut reasons), Ok(2));
/// // The given transition (0, 32, 1) is pending: its place 1025 is bit 1 of byte 128.
/// assert_eq!(bits[128], 0b10);
/// ```
///
/// # Errors
/// Refusals 10 (bit table, reasons) and 1 to 9; nothing is written then.
pub fn start(job: &[u8], bits: &mut [u8], reasons: &mut [u32]) -> Result<usize, Refusal> {
    let [_, _, states] = answered(Operation::Bits, ffi::ropeclover_start_bits(job, bits, reasons))?;
    Ok(states as usize)
}

/// Makes at most `n` steps on a bit table, whatever it holds.
///
/// ```
/// use ropeclover::{BIT_TABLE_BYTES, HALF_BYTES, REASONS};
///
/// let job = ropeclover::text::assemble("S 0\nU 0 32\nI 0\nF 1\nT 0 32 1\n").unwrap();
/// let (mut bits, mut reasons) = (vec![0; BIT_TABLE_BYTES], vec![0; REASONS]);
/// ropeclover::bits::start(&job, &mut bits, &mut reasons).unwrap();
/// assert!(!ropeclover::bits::advance(&job, &mut bits, &mut reasons, 1).unwrap().finished);
/// // The given transition is done, and (0, 0, 1), of place 1, is pending.
/// assert_eq!((bits[128], bits[HALF_BYTES + 128], bits[0]), (0, 0b10, 0b10));
/// assert!(ropeclover::bits::advance(&job, &mut bits, &mut reasons, 1).unwrap().finished);
/// ```
///
/// # Errors
/// Refusals 10 (bit table, reasons) and 1 to 9; nothing is written then.
pub fn advance(job: &[u8], bits: &mut [u8], reasons: &mut [u32], n: u64) -> Result<Advanced, Refusal> {
    advanced(Operation::Bits, ffi::ropeclover_advance_bits(job, bits, reasons, n))
}

/// Whether a form is accepted on a bit table: it leads from the initial state to a final one over the done transitions. What it means on a table
/// that is not finished is said at [`ask`](crate::ask).
///
/// ```
/// use ropeclover::{BIT_TABLE_BYTES, REASONS};
///
/// let job = ropeclover::text::assemble("S 0\nU 0 32\nI 0\nF 1\nT 0 32 1\n").unwrap();
/// let (mut bits, mut reasons) = (vec![0; BIT_TABLE_BYTES], vec![0; REASONS]);
/// ropeclover::bits::start(&job, &mut bits, &mut reasons).unwrap();
/// ropeclover::bits::advance(&job, &mut bits, &mut reasons, u64::MAX).unwrap();
/// assert_eq!(ropeclover::bits::ask(&job, &bits, &[0]), Ok(true));
/// assert_eq!(ropeclover::bits::ask(&job, &bits, &[33]), Ok(false));
/// ```
///
/// # Errors
/// Refusals 10 (bit table), 1 to 9, 12 and 11.
pub fn ask(job: &[u8], bits: &[u8], form: &[u8]) -> Result<bool, Refusal> {
    let [_, _, accepted] = answered(Operation::Bits, ffi::ropeclover_ask_bits(job, bits, form))?;
    Ok(accepted == 1)
}

/// The number of done transitions of a bit table: the ones in its done half.
///
/// ```
/// let mut bits = vec![0; ropeclover::BIT_TABLE_BYTES];
/// bits[0] = 0xff;
/// bits[ropeclover::HALF_BYTES] = 0b101;
/// assert_eq!(ropeclover::bits::done_count(&bits), Ok(2));
/// ```
///
/// # Errors
/// Refusal 10 (bit table).
pub fn done_count(bits: &[u8]) -> Result<u64, Refusal> {
    let [_, _, count] = answered(Operation::Bits, ffi::ropeclover_done_count(bits))?;
    Ok(count)
}
