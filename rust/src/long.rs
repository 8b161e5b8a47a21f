//! Long jobs: records of twelve bytes, in which a rule may have a body of up to eight symbols.
//!
//! An L record is the letter, the head, the length of the body, the body padded with zeros to eight bytes, and a zero. Any other record is the
//! four bytes of a job's, padded with zeros. [`binarize`] writes a long job as an ordinary one.
//!
//! ```
//! use ropeclover::{long, text, Workspace};
//!
//! // A memory command is M, a digit, T and two digits: variable 0 with a body of five symbols.
//! let read = text::read("S 0\nL 0 32 1 33 1 1\nU 1 34\nI 0\n").unwrap();
//! assert!(read.is_long);
//! let job = long::binarized(&read.bytes).unwrap();
//! assert_eq!(job, read.ordinary().unwrap().job);
//! // 2, 3 and 4 are taken for the tails.
//! assert_eq!(
//!     text::disassemble(&job).unwrap(),
//!     "S 0 0 0\nP 0 32 2\nP 2 1 3\nP 3 33 4\nP 4 1 1\nU 1 34 0\nI 0 0 0\n"
//! );
//! assert!(!Workspace::new().report(&job).unwrap().empty);
//! ```
use crate::format::{self, Class};
use crate::text::Names;
use crate::{binarize, Refusal, BODY_SYMBOLS, JOB_BYTES, LONG_RECORD_BYTES};
use std::collections::BTreeSet;

/// The kind of a rule with a body of any length up to [`BODY_SYMBOLS`].
///
/// ```
/// use ropeclover::long;
/// assert_eq!(long::rule(0, &[]).unwrap()[0], long::KIND);
/// ```
pub const KIND: u8 = b'L';

/// A record of a long job.
///
/// ```
/// use ropeclover::long::{padded, LongRecord};
/// let record: LongRecord = padded(*b"S\x03\0\0");
/// assert_eq!(&record, b"S\x03\0\0\0\0\0\0\0\0\0\0");
/// ```
pub type LongRecord = [u8; LONG_RECORD_BYTES];

/// The record of a rule; none where the body has over [`BODY_SYMBOLS`] symbols.
///
/// ```
/// use ropeclover::long::rule;
/// assert_eq!(rule(1, &[32, 2, 33]).unwrap(), *b"L\x01\x03\x20\x02\x21\0\0\0\0\0\0");
/// assert_eq!(rule(1, &[32; 9]), None);
/// ```
pub fn rule(head: u8, body: &[u8]) -> Option<LongRecord> {
    let mut record = [0; LONG_RECORD_BYTES];
    record[..3].copy_from_slice(&[KIND, head, body.len() as u8]);
    record[3..3 + BODY_SYMBOLS].get_mut(..body.len())?.copy_from_slice(body);
    Some(record)
}

/// A job's record as one of a long job.
///
/// ```
/// assert_eq!(ropeclover::long::padded(*b"P\0\x01\x02"), *b"P\0\x01\x02\0\0\0\0\0\0\0\0");
/// ```
pub fn padded(record: [u8; 4]) -> LongRecord {
    let mut long = [0; LONG_RECORD_BYTES];
    long[..4].copy_from_slice(&record);
    long
}

/// Whether bytes are a long job rather than a job.
///
/// ```
/// use ropeclover::long::is_long;
/// assert!(is_long(b"L\0\x02\x20\x21\0\0\0\0\0\0\0"));
/// assert!(!is_long(b"S\0\0\0I\0\0\0F\0\0\0"));
/// assert!(!is_long(b"S\0\0\0"));
/// assert!(!is_long(&[0; 24]));
/// ```
pub fn is_long(bytes: &[u8]) -> bool {
    // In a job the two bytes are the kinds of records 1 and 2: letters, so above 64. In a long job they are symbols of record 0 or padding, so
    // below it. Where not even the first byte is a kind's letter, it is neither, and is read as the proved programs read it.
    bytes.len() >= LONG_RECORD_BYTES && bytes[0].is_ascii_alphabetic() && bytes[4] < 64 && bytes[8] < 64
}

/// The symbols of an L record's body: as many as its length says, at most eight.
fn body(record: &LongRecord) -> &[u8] {
    &record[3..3 + usize::from(record[2]).min(BODY_SYMBOLS)]
}

/// The fields as a text writes them: an L record's head and the symbols of its body, at most eight; any other's three.
///
/// ```
/// use ropeclover::long::{fields, padded, rule};
/// assert_eq!(fields(&rule(1, &[32, 33]).unwrap()), [1, 32, 33]);
/// assert_eq!(fields(&padded(*b"S\x01\0\0")), [1, 0, 0]);
/// ```
pub fn fields(record: &LongRecord) -> Vec<u8> {
    match record[0] {
        KIND => [&record[1..2], body(record)].concat(),
        _ => record[1..4].to_vec(),
    }
}

/// The class of a field of a kind, from 1; none where there is no such kind or field.
///
/// ```
/// use ropeclover::format::Class;
/// use ropeclover::long::class;
/// assert_eq!((class(b'L', 1), class(b'L', 9)), (Some(Class::Variable), Some(Class::Symbol)));
/// assert_eq!((class(b'T', 1), class(b'T', 4), class(b'X', 1)), (Some(Class::State), None, None));
/// ```
pub fn class(kind: u8, field: usize) -> Option<Class> {
    const LAST: usize = 1 + BODY_SYMBOLS;
    match (kind, field) {
        (KIND, 1) => Some(Class::Variable),
        (KIND, 2..=LAST) => Some(Class::Symbol),
        _ => format::classes(kind)?.get(field.checked_sub(1)?).copied(),
    }
}

/// The first field, from 1, that is outside its class.
///
/// ```
/// use ropeclover::long::{bad_field, rule};
/// assert_eq!(bad_field(&rule(0, &[32, 64]).unwrap()), Some(3));
/// assert_eq!(bad_field(&rule(32, &[]).unwrap()), Some(1));
/// assert_eq!(bad_field(&rule(0, &[32, 63]).unwrap()), None);
/// ```
pub fn bad_field(record: &LongRecord) -> Option<usize> {
    let numbered = (1..).zip(fields(record));
    let bad = |(field, byte): &(usize, u8)| class(record[0], *field).is_some_and(|class| !class.holds(*byte));
    numbered.into_iter().find(bad).map(|(field, _)| field)
}

/// Whether the length is at most eight and each byte past the fields is zero.
///
/// ```
/// use ropeclover::long::is_padded;
/// assert!(is_padded(b"L\0\x01\x20\0\0\0\0\0\0\0\0"));
/// assert!(!is_padded(b"L\0\x01\x20\x21\0\0\0\0\0\0\0"));
/// assert!(!is_padded(b"L\0\x09\0\0\0\0\0\0\0\0\0"));
/// assert!(!is_padded(b"S\0\0\0\0\0\0\0\0\0\0\x01"));
/// ```
pub fn is_padded(record: &LongRecord) -> bool {
    let is_rule = record[0] == KIND;
    let end = if is_rule { 3 + body(record).len() } else { 4 };
    let fits = !is_rule || usize::from(record[2]) <= BODY_SYMBOLS;
    fits && record[end..].iter().all(|byte| *byte == 0)
}

/// The head and the body of a record that is a rule, of whatever kind. Two records with the same one are written alike.
///
/// ```
/// use ropeclover::long::{padded, production, rule};
/// assert_eq!(production(&padded(*b"P\x03\x01\x02")), Some((3, vec![1, 2])));
/// assert_eq!(production(&rule(3, &[1, 2]).unwrap()), Some((3, vec![1, 2])));
/// assert_eq!(production(&padded(*b"S\x03\0\0")), None);
/// ```
pub fn production(record: &LongRecord) -> Option<(u8, Vec<u8>)> {
    let symbols = match record[0] {
        KIND => body(record),
        b'E' => &[],
        b'U' => &record[2..3],
        b'P' => &record[2..4],
        _ => return None,
    };
    Some((record[1], symbols.to_vec()))
}

/// The job that a long job is written as, in memory of its own.
///
/// ```
/// use ropeclover::long::{binarized, padded, rule};
/// let long = [rule(0, &[]).unwrap(), padded(*b"S\0\0\0"), padded(*b"I\0\0\0")].concat();
/// assert_eq!(binarized(&long).unwrap(), b"E\0\0\0S\0\0\0I\0\0\0");
/// assert_eq!(binarized(&long[..13]).unwrap_err().number(), 1);
/// ```
///
/// # Errors
/// All refusals of [`binarize`] but 13.
pub fn binarized(long: &[u8]) -> Result<Vec<u8>, Refusal> {
    let mut job = vec![0; JOB_BYTES];
    let records = binarize(long, &mut job)?;
    job.truncate(4 * records);
    Ok(job)
}

/// The ordinary job of a long job or its text; see [`ordinary`] and [`Text::ordinary`](crate::text::Text::ordinary).
///
/// ```
/// use ropeclover::{long::Ordinary, text};
/// let ordinary: Ordinary = text::read("S 1\nL 1 1 32 1 33\nI 0\n").unwrap().ordinary().unwrap();
/// assert_eq!(ordinary.fresh, [0, 2]);
/// ```
#[derive(Clone, Debug, PartialEq, Eq)]
pub struct Ordinary {
    /// The job.
    pub job: Vec<u8>,
    /// The names of its symbols and states.
    pub names: Names,
    /// The variables that were taken for the tails of long rules, in ascending order.
    pub fresh: Vec<u8>,
}

/// The job that a long job is written as, with the names of the long job's symbols. A variable that is taken is named by what it stands for, as
/// [`Names::name_tails`] says.
///
/// ```
/// use ropeclover::{long, text};
/// let names = text::names("name 0 go\n");
/// let long = text::assemble("S 0\nL 0 32 32 33\nI 0\n").unwrap();
/// let ordinary = long::ordinary(&long, &names).unwrap();
/// assert_eq!(ordinary.job, b"S\0\0\0P\0\x20\x01P\x01\x20\x21I\0\0\0");
/// assert_eq!(ordinary.names.symbol(1), "go.2");
/// ```
///
/// # Errors
/// All refusals of [`binarize`] but 13.
pub fn ordinary(long: &[u8], names: &Names) -> Result<Ordinary, Refusal> {
    let job = binarized(long)?;
    let mut names = names.clone();
    names.name_tails(&tails(long, &job));
    Ok(Ordinary { fresh: fresh(long, &job), job, names })
}

/// The variables that the records of a long job name.
fn named(long: &[u8]) -> BTreeSet<u8> {
    let records = long.chunks_exact(LONG_RECORD_BYTES).filter_map(|bytes| LongRecord::try_from(bytes).ok());
    let holds_symbol = |kind, field| matches!(class(kind, field), Some(Class::Variable | Class::Symbol));
    let names = |record: LongRecord| {
        let numbered = (1..).zip(fields(&record));
        numbered.filter(move |(field, byte)| holds_symbol(record[0], *field) && *byte < 32).map(|(_, byte)| byte)
    };
    records.flat_map(names).collect()
}

/// The variables that were taken for the job that a long job is written as, in ascending order.
///
/// ```
/// use ropeclover::{long, text};
/// let read = text::read("S 1\nL 1 1 32 1 33\nI 0\n").unwrap();
/// let job = long::binarized(&read.bytes).unwrap();
/// assert_eq!(long::fresh(&read.bytes, &job), [0, 2]);
/// ```
pub fn fresh(long: &[u8], job: &[u8]) -> Vec<u8> {
    let records = job.chunks_exact(4).filter_map(|bytes| <[u8; 4]>::try_from(bytes).ok());
    let written: Vec<u8> = records.flat_map(padded).collect();
    named(&written).difference(&named(long)).copied().collect()
}

/// What a variable that was taken for the job of a long job stands for: the end of a long rule's body.
///
/// ```
/// use ropeclover::{long, text};
/// let read = text::read("S 0\nL 0 32 1 33 1\nU 1 34\nI 0\n").unwrap();
/// let tails = long::tails(&read.bytes, &long::binarized(&read.bytes).unwrap());
/// assert_eq!(tails[1], long::Tail { variable: 3, head: 0, rule: 1, from: 3 });
/// ```
#[derive(Clone, Copy, Debug, PartialEq, Eq)]
pub struct Tail {
    /// The variable.
    pub variable: u8,
    /// The head of the rule.
    pub head: u8,
    /// Which of the rules with this head and a body of more than two symbols it is, from 1.
    pub rule: usize,
    /// The place of the tail's first symbol in the body, from 1.
    pub from: usize,
}

/// What each variable that was taken for the job stands for. They are taken in ascending order, by the records and along each body.
///
/// ```
/// use ropeclover::{long, text};
/// let read = text::read("S 1\nL 1 1 32 1 33\nI 0\n").unwrap();
/// let tails = long::tails(&read.bytes, &long::binarized(&read.bytes).unwrap());
/// assert_eq!(tails.iter().map(|tail| (tail.variable, tail.from)).collect::<Vec<_>>(), [(0, 2), (2, 3)]);
/// ```
pub fn tails(long: &[u8], job: &[u8]) -> Vec<Tail> {
    let mut variables = fresh(long, job).into_iter();
    let mut tails: Vec<Tail> = Vec::new();
    let records = long.chunks_exact(LONG_RECORD_BYTES).filter_map(|bytes| LongRecord::try_from(bytes).ok());
    for record in records.filter(|record| record[0] == KIND && body(record).len() > 2) {
        let rule = 1 + tails.iter().filter(|tail| tail.head == record[1] && tail.from == 2).count();
        let places = 2..body(&record).len();
        tails.extend(places.zip(&mut variables).map(|(from, variable)| Tail { variable, head: record[1], rule, from }));
    }
    tails
}
