//! The library's functions on lent memory, but those on a bit table.
use crate::{ffi, Operation, Refusal};

/// What [`advance`] answers.
///
/// ```
/// let job = ropeclover::text::assemble("S 0\nE 0\nI 0\n").unwrap();
/// let (mut table, mut reasons) = (vec![0; ropeclover::TABLE_BYTES], vec![0; ropeclover::REASONS]);
/// ropeclover::start(&job, &mut table, &mut reasons).unwrap();
/// let advanced: ropeclover::Advanced = ropeclover::advance(&job, &mut table, &mut reasons, 0).unwrap();
/// assert!(!advanced.finished && advanced.steps == 0);
/// ```
#[derive(Clone, Copy, Debug, PartialEq, Eq)]
pub struct Advanced {
    /// Whether no pending transition is left.
    pub finished: bool,
    /// The steps made.
    pub steps: u64,
    /// The rise in pair meetings of the done transitions.
    pub meetings: u64,
}

/// What [`explain`] answers.
///
/// ```
/// let job = ropeclover::text::assemble("S 0\nI 0\nF 0\n").unwrap();
/// let (mut table, mut reasons) = (vec![0; ropeclover::TABLE_BYTES], vec![0; ropeclover::REASONS]);
/// let explained: ropeclover::Explained = ropeclover::explain(&job, &mut table, &mut reasons, &[], &mut []).unwrap();
/// assert!(explained.accepted && explained.records == 0);
/// ```
#[derive(Clone, Copy, Debug, PartialEq, Eq)]
pub struct Explained {
    /// Whether the form is accepted.
    pub accepted: bool,
    /// The listing records written, 8 bytes each.
    pub records: usize,
}

/// What [`verdicts`] answers.
///
/// ```
/// let (verdicts, _) = ropeclover::Workspace::new().verdicts(b"S\0\0\0E\0\0\0").unwrap();
/// assert_eq!(verdicts, ropeclover::Verdicts { empty: false, growing: false });
/// ```
#[derive(Clone, Copy, Debug, PartialEq, Eq)]
pub struct Verdicts {
    /// Whether the start symbol derives no terminal string.
    pub empty: bool,
    /// Whether it derives infinitely many: so if, and only if, some useful symbol derives itself between terminal strings, not both empty.
    pub growing: bool,
}

/// What an operation answers behind a number that refuses it and a place; the refusal where the number is not 0.
pub(crate) fn answered<const N: usize>(operation: Operation, answer: [u64; N]) -> Result<[u64; N], Refusal> {
    match answer[0] {
        0 => Ok(answer),
        number => Err(Refusal::of(operation, number, answer[1])),
    }
}

/// What an advance answers, on whichever table.
pub(crate) fn advanced(operation: Operation, answer: [u64; 5]) -> Result<Advanced, Refusal> {
    let [_, _, finished, steps, meetings] = answered(operation, answer)?;
    Ok(Advanced { finished: finished == 1, steps, meetings })
}

/// Writes the table and the reasons that the job starts from, and returns its number of states.
///
/// ```
/// let job = ropeclover::text::assemble("S 0\nU 0 32\nI 0\nF 1\nT 0 32 1\n").unwrap();
/// let (mut table, mut reasons) = (vec![0; ropeclover::TABLE_BYTES], vec![0; ropeclover::REASONS]);
/// assert_eq!(ropeclover::start(&job, &mut table, &mut reasons), Ok(2));
/// // The given transition (0, 32, 1) is pending.
/// assert_eq!(table[32 * 32 + 1], 1);
/// ```
///
/// # Errors
/// Refusals 10 (table, reasons) and 1 to 9; nothing is written then.
pub fn start(job: &[u8], table: &mut [u8], reasons: &mut [u32]) -> Result<usize, Refusal> {
    let [_, _, states] = answered(Operation::Table, ffi::ropeclover_start(job, table, reasons))?;
    Ok(states as usize)
}

/// Makes at most `n` steps on a table, whatever it holds.
///
/// ```
/// let job = ropeclover::text::assemble("S 0\nU 0 32\nI 0\nF 1\nT 0 32 1\n").unwrap();
/// let (mut table, mut reasons) = (vec![0; ropeclover::TABLE_BYTES], vec![0; ropeclover::REASONS]);
/// ropeclover::start(&job, &mut table, &mut reasons).unwrap();
/// assert!(!ropeclover::advance(&job, &mut table, &mut reasons, 1).unwrap().finished);
/// assert!(ropeclover::advance(&job, &mut table, &mut reasons, 1).unwrap().finished);
/// ```
///
/// # Errors
/// Refusals 10 (table, reasons) and 1 to 9; nothing is written then.
pub fn advance(job: &[u8], table: &mut [u8], reasons: &mut [u32], n: u64) -> Result<Advanced, Refusal> {
    advanced(Operation::Table, ffi::ropeclover_advance(job, table, reasons, n))
}

/// Whether a form is accepted on a table: it leads from the initial state to a final one over the done transitions. On a table that this job's
/// start and advances have finished, that is whether the form derives a string of the automaton; on any other table it speaks of that table
/// alone. [`Finished::ask`](crate::Finished::ask) asks a finished one.
///
/// ```
/// let job = ropeclover::text::assemble("S 0\nU 0 32\nI 0\nF 1\nT 0 32 1\n").unwrap();
/// let (mut table, mut reasons) = (vec![0; ropeclover::TABLE_BYTES], vec![0; ropeclover::REASONS]);
/// ropeclover::start(&job, &mut table, &mut reasons).unwrap();
/// ropeclover::advance(&job, &mut table, &mut reasons, u64::MAX).unwrap();
/// assert_eq!(ropeclover::ask(&job, &table, &[0]), Ok(true));
/// assert_eq!(ropeclover::ask(&job, &table, &[33]), Ok(false));
/// ```
///
/// # Errors
/// Refusals 10 (table), 1 to 9, 12 and 11.
pub fn ask(job: &[u8], table: &[u8], form: &[u8]) -> Result<bool, Refusal> {
    let [_, _, accepted] = answered(Operation::Table, ffi::ropeclover_ask(job, table, form))?;
    Ok(accepted == 1)
}

/// Starts, runs to the end, and lists step by step why the form is accepted. [`Workspace::explain`](crate::Workspace::explain) lends a
/// listing that is long enough.
///
/// ```
/// let job = ropeclover::text::assemble("S 0\nU 0 32\nI 0\nF 1\nT 0 32 1\n").unwrap();
/// let (mut table, mut reasons) = (vec![0; ropeclover::TABLE_BYTES], vec![0; ropeclover::REASONS]);
/// let mut listing = [0; 16];
/// let explained = ropeclover::explain(&job, &mut table, &mut reasons, &[0], &mut listing).unwrap();
/// assert_eq!((explained.accepted, explained.records), (true, 2));
/// assert_eq!(&listing, b"\0\x20\x01G\0\0\0\0\0\0\x01U\x20\0\0\0");
/// ```
///
/// # Errors
/// Refusals 10 (table, reasons), 1 to 9, 12 and 11: nothing is written then. A listing that is too short is refused with 13 and the records
/// needed; table and reasons are then as after a success.
pub fn explain(
    job: &[u8],
    table: &mut [u8],
    reasons: &mut [u32],
    form: &[u8],
    listing: &mut [u8],
) -> Result<Explained, Refusal> {
    let answer = ffi::ropeclover_explain(job, table, reasons, form, listing);
    let [_, _, accepted, records] = answered(Operation::Table, answer)?;
    Ok(Explained { accepted: accepted == 1, records: records as usize })
}

/// Codes of the 64 symbols (0 named in no rule and not the start, 1 useful, 2 derives no terminal string, 3 never reached from the start),
/// and whether the language is empty and whether it grows. The table is scratch, left 0. No I record is needed.
///
/// ```
/// let job = ropeclover::text::assemble("S 0\nU 0 32\nU 1 33\n").unwrap();
/// let mut codes = [0; ropeclover::CODES];
/// ropeclover::verdicts(&job, &mut vec![0; ropeclover::TABLE_BYTES], &mut codes).unwrap();
/// assert_eq!((codes[0], codes[1], codes[2]), (1, 3, 0));
/// ```
///
/// # Errors
/// Refusals 10 (table, codes) and 1 to 8; nothing is written then.
pub fn verdicts(job: &[u8], table: &mut [u8], codes: &mut [u8]) -> Result<Verdicts, Refusal> {
    let [_, _, empty, growing] = answered(Operation::Table, ffi::ropeclover_verdicts(job, table, codes))?;
    Ok(Verdicts { empty: empty == 1, growing: growing == 1 })
}

/// The four bytes of the record that the job is refused for by 3 to 7, a part of the job itself; else the empty part.
///
/// ```
/// assert_eq!(ropeclover::show_refused(b"S\0\0\0X\x01\x02\x03"), b"X\x01\x02\x03");
/// assert_eq!(ropeclover::show_refused(b"S\0\0\0"), b"");
/// ```
pub fn show_refused(job: &[u8]) -> &[u8] {
    let [at, length] = ffi::ropeclover_show(job).map(|number| number as usize);
    &job[at..at + length]
}

/// Writes a [long job](crate::long) as an ordinary one, record by record in the order read, and returns its number of records. What each variable
/// of the long job derives in terminals is the same before and after. [`long::binarized`](crate::long::binarized) lends a buffer that is long
/// enough.
///
/// A body of none, one or two symbols is an E, a U or a P record, and takes no variable. A longer one, of n symbols, is n − 1 P records, the head's
/// first: each has the next symbol and a variable for the tail that is left, and the last has the two last symbols. The n − 2 variables are the
/// lowest of 0 to 31 that no record names and no other tail has taken. Terminals stand in P records as they are.
///
/// ```
/// use ropeclover::long::{padded, rule};
/// let long = [padded(*b"S\0\0\0"), rule(0, &[32, 0, 0]).unwrap(), padded(*b"I\0\0\0")].concat();
/// let mut job = [7; 20];
/// assert_eq!(ropeclover::binarize(&long, &mut job), Ok(4));
/// assert_eq!(&job, b"S\0\0\0P\0\x20\x01P\x01\0\0I\0\0\0\x07\x07\x07\x07");
/// ```
///
/// # Errors
/// Refusals 2 and 1; 3, 4, 15 and 6 on each record; then 14, 5 and 7 on each record; 8, 9, 2 for the job written, and 13 with the records needed.
/// Nothing is written then.
pub fn binarize(long: &[u8], job: &mut [u8]) -> Result<usize, Refusal> {
    let [_, _, records] = answered(Operation::Binarize, ffi::ropeclover_binarize(long, job))?;
    Ok(records as usize)
}
