//! Ropeclover tells what a context-free grammar can say: which symbols are useless, whether the language is empty or grows, whether a form
//! leads into a given automaton, and step by step why. This crate is a safe wrapper over the proved library: each function passes the
//! caller's slices on, and a refused call is an [`Err`] that says what to mend and where.
//!
//! ```
//! use ropeclover::{text, Refusal, Workspace};
//!
//! // A command is the letter F and digits; the automaton is a chain that reads one recorded command, F 1 4.
//! let job = text::assemble(
//!     r#"
//!     name 0 command
//!     name 1 letter
//!     name 2 digits
//!     name 3 digit
//!     name 32 "F"
//!     name 33 "0-9"
//!     S command
//!     P command letter digits
//!     U letter "F"
//!     U digits digit
//!     P digits digit digits
//!     U digit "0-9"
//!     I 0
//!     F 3
//!     T 0 "F" 1
//!     T 1 "0-9" 2
//!     T 2 "0-9" 3
//!     "#,
//! )
//! .unwrap();
//!
//! // What the report says.
//! let mut workspace = Workspace::new();
//! let report = workspace.report(&job).unwrap();
//! assert!(report.start && !report.empty && report.growing);
//!
//! // Saturation a counted number of steps at a time.
//! let mut started = workspace.start(&job).unwrap();
//! while !started.advance(2).finished {}
//! assert!(started.finish().ask(&[1, 2]).unwrap());
//!
//! // Why the recorded command is one of the grammar's.
//! let explanation = workspace.explain(&job, &[0]).unwrap();
//! assert_eq!(explanation.records.last().unwrap().to_string(), "0 0 3 by 0 -> 1 2 at 1");
//! // And when that was learned: ten transitions were done by then.
//! assert_eq!(workspace.turn((0, 0, 3)), 10);
//!
//! // A refused call says what is wrong, and where.
//! let refusal = workspace.report(&job[..39]).unwrap_err();
//! assert_eq!(refusal, Refusal::PartialRecord { records: 9 });
//! assert_eq!((refusal.number(), refusal.place()), (1, 9));
//! ```
//!
//! The nine functions [`start`], [`advance`], [`ask`], [`explain`], [`verdicts`], [`show_refused`], [`binarize`], [`clean`] and [`read_abnf`] are the
//! library's, on lent memory; [`Workspace`] owns such memory and knows what it holds. The module [`bits`] has the library's functions on a table in a
//! quarter of the memory. [`text`] reads and writes jobs as text. [`long`] is for rules with more than two symbols in their bodies. [`abnf_grammar`]
//! reads a grammar from ABNF text.
#![deny(missing_docs)]

mod abnf;
pub mod bits;
mod calls;
mod clean;
mod entry;
mod ffi;
pub mod format;
pub mod listing;
pub mod long;
mod random;
mod refusal;
mod saturation;
mod sequence;
mod shuffle;
pub mod text;
mod words;
mod workspace;

pub use abnf::{abnf_grammar, read_abnf, AbnfGrammar, Missing, TextRead};
pub use calls::{advance, ask, binarize, explain, show_refused, start, verdicts, Advanced, Explained, Verdicts};
pub use clean::{clean, cleaned, CleanCopy, LeftOut};
pub use entry::{reason_of, turn_of};
pub use refusal::{Buffer, Operation, Place, Refusal};
pub use saturation::{Finished, Started};
pub use shuffle::shuffled;
pub use words::refusal_text;
pub use workspace::{Explanation, Report, Workspace};

/// The version of this crate, which is that of the C header.
pub const VERSION: &str = env!("CARGO_PKG_VERSION");

/// The variables: 0 to 31.
///
/// ```
/// use ropeclover::{format::Class, VARIABLES};
/// assert!(Class::Variable.holds(VARIABLES as u8 - 1) && !Class::Variable.holds(VARIABLES as u8));
/// ```
pub const VARIABLES: usize = 32;

/// The symbols: the variables, and behind them as many terminals, 32 to 63.
///
/// ```
/// use ropeclover::{format::Class, SYMBOLS};
/// assert!(Class::Symbol.holds(SYMBOLS as u8 - 1) && !Class::Symbol.holds(SYMBOLS as u8));
/// ```
pub const SYMBOLS: usize = 64;

/// The states: 0 to 31.
///
/// ```
/// use ropeclover::{format::Class, STATES};
/// assert!(Class::State.holds(STATES as u8 - 1) && !Class::State.holds(STATES as u8));
/// ```
pub const STATES: usize = 32;

/// The most rules of a job.
///
/// ```
/// let rules = (0..=ropeclover::RULES).flat_map(|n| [b'P', 0, (n / 64) as u8, (n % 64) as u8]);
/// let refusal = ropeclover::Workspace::new().report(&rules.collect::<Vec<u8>>()).unwrap_err();
/// assert_eq!((refusal.number(), refusal.record()), (7, Some(256)));
/// ```
pub const RULES: usize = 256;

/// The most records of a job, and of a long job.
///
/// ```
/// assert_eq!(ropeclover::RECORDS * ropeclover::RECORD_BYTES, ropeclover::JOB_BYTES);
/// ```
pub const RECORDS: usize = 4_096;

/// The length of a record of a job in bytes.
///
/// ```
/// assert_eq!(ropeclover::text::assemble("S 0").unwrap().len(), ropeclover::RECORD_BYTES);
/// ```
pub const RECORD_BYTES: usize = 4;

/// The bytes of a table that are read and written.
///
/// ```
/// assert_eq!(ropeclover::Workspace::new().table().len(), ropeclover::TABLE_BYTES);
/// ```
pub const TABLE_BYTES: usize = 65_536;

/// The bytes of a bit table that are read and written: its pending half and its done half. [`bits::start`] says what they hold.
///
/// ```
/// assert_eq!(ropeclover::BIT_TABLE_BYTES, 2 * ropeclover::TABLE_BYTES / 8);
/// ```
pub const BIT_TABLE_BYTES: usize = 16_384;

/// The bytes of a half of a bit table, so where its done half begins.
///
/// ```
/// assert_eq!(2 * ropeclover::HALF_BYTES, ropeclover::BIT_TABLE_BYTES);
/// ```
pub const HALF_BYTES: usize = 8_192;

/// The reasons that are read and written, an entry of 32 bits each. [`reason_of`] and [`turn_of`] take an entry apart.
///
/// ```
/// assert_eq!(ropeclover::Workspace::new().reasons().len(), ropeclover::REASONS);
/// ```
pub const REASONS: usize = 32_768;

/// The codes, one for each symbol.
///
/// ```
/// let mut codes = [0; ropeclover::CODES];
/// ropeclover::verdicts(b"S\0\0\0", &mut [0; ropeclover::TABLE_BYTES], &mut codes).unwrap();
/// assert_eq!(codes[0], 2);
/// ```
pub const CODES: usize = SYMBOLS;

/// The longest job in bytes: 4,096 records.
///
/// ```
/// let refusal = ropeclover::Workspace::new().report(&[0; ropeclover::JOB_BYTES + 4]).unwrap_err();
/// assert_eq!(refusal.number(), 2);
/// ```
pub const JOB_BYTES: usize = 16_384;

/// The longest form in symbols.
///
/// ```
/// let job = ropeclover::text::assemble("S 0\nI 0\n").unwrap();
/// let form = [0; ropeclover::FORM_SYMBOLS + 1];
/// assert_eq!(ropeclover::Workspace::new().explain(&job, &form).unwrap_err().number(), 12);
/// ```
pub const FORM_SYMBOLS: usize = 64;

/// The length of a record of a listing in bytes.
///
/// ```
/// use ropeclover::{listing::Record, LISTING_RECORD_BYTES};
/// assert!(Record::from_bytes(&b"\0\x20\x01G\0\0\0\0"[..LISTING_RECORD_BYTES]).is_some());
/// ```
pub const LISTING_RECORD_BYTES: usize = 8;

/// The longest listing in bytes: a record of 8 bytes for each transition.
///
/// ```
/// assert_eq!(ropeclover::LISTING_BYTES, 8 * ropeclover::TABLE_BYTES);
/// ```
pub const LISTING_BYTES: usize = 524_288;

/// The length of a record of a long job in bytes.
///
/// ```
/// assert_eq!(ropeclover::long::rule(0, &[]).unwrap().len(), ropeclover::LONG_RECORD_BYTES);
/// ```
pub const LONG_RECORD_BYTES: usize = 12;

/// The longest long job in bytes: 4,096 records.
///
/// ```
/// let refusal = ropeclover::binarize(&[0; ropeclover::LONG_JOB_BYTES + 12], &mut []).unwrap_err();
/// assert_eq!(refusal.number(), 2);
/// ```
pub const LONG_JOB_BYTES: usize = 49_152;

/// The most symbols of a rule's body in a long job.
///
/// ```
/// use ropeclover::{long, BODY_SYMBOLS};
/// assert!(long::rule(0, &[32; BODY_SYMBOLS]).is_some() && long::rule(0, &[32; BODY_SYMBOLS + 1]).is_none());
/// ```
pub const BODY_SYMBOLS: usize = 8;

/// The longest clean copy in bytes, and the longest job of an ABNF text: an S record and 256 rules.
///
/// ```
/// let rules = (0..=255).flat_map(|n| [b'P', 0, 32 + n / 16, 32 + n % 16]);
/// let job: Vec<u8> = b"S\0\0\0".iter().copied().chain(rules).collect();
/// assert_eq!(ropeclover::clean(&job, &mut [0; ropeclover::COPY_BYTES]), Ok(257));
/// ```
pub const COPY_BYTES: usize = 1_028;

/// The longest ABNF text in bytes.
///
/// ```
/// let refusal = ropeclover::abnf_grammar(&[0; ropeclover::ABNF_BYTES + 1]).unwrap_err();
/// assert_eq!(refusal.number(), 2);
/// ```
pub const ABNF_BYTES: usize = 16_384;

/// The bytes of a map that are written: a character for each terminal.
///
/// ```
/// let refusal = ropeclover::read_abnf(b"", &mut [0; ropeclover::MAP_BYTES - 1], &mut []).unwrap_err();
/// assert_eq!((refusal.number(), refusal.place()), (10, 3));
/// ```
pub const MAP_BYTES: usize = 32;
