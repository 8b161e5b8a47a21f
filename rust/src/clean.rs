//! Clean copies: the useful rules of a job, in one spelling, and what was left out.
use crate::calls::answered;
use crate::format::start_symbol;
use crate::long::{padded, production};
use crate::text::Names;
use crate::{ffi, Operation, Refusal, CODES, COPY_BYTES};

/// A symbol's code: some string of the language is derived by way of it.
const USEFUL: u8 = 1;
/// A symbol's code: it derives no string of terminals.
const DERIVES_NO_STRING: u8 = 2;

/// Writes the clean copy of a job, and returns its number of records: S, then by their ranks the rules whose symbols all have code 1. Variables with
/// code 1 are numbered anew: the lowest is 0, the next 1, and so on. Of an empty language, the copy is S 0 0 0. [`cleaned`] lends a buffer that is
/// long enough; [`Workspace::clean`] also says what is left out.
///
/// The copy is a job without T, I and F records, and its start symbol derives the same strings of terminals. Its own copy has the same bytes, and so
/// has that of every job with the same rules and start symbol. That is proved of the library.
///
/// [`Workspace::clean`]: crate::Workspace::clean
///
/// ```
/// // 5 -> 3 32 and 3 -> empty; 4 -> 33 is never reached. Of the useful variables 3 is the lowest, and 5 the next.
/// let job = ropeclover::text::assemble("P 5 3 32\nS 5\nU 4 33\nE 3\nI 0\n").unwrap();
/// let mut out = [7; 16];
/// assert_eq!(ropeclover::clean(&job, &mut out), Ok(3));
/// assert_eq!(&out, b"S\x01\0\0E\0\0\0P\x01\0\x20\x07\x07\x07\x07");
/// ```
///
/// # Errors
/// Refusals 1 to 8, and then 13 with the records needed. Nothing is written then.
pub fn clean(job: &[u8], out: &mut [u8]) -> Result<usize, Refusal> {
    let [_, _, records] = answered(Operation::Clean, ffi::ropeclover_clean(job, out))?;
    Ok(records as usize)
}

/// The clean copy of a job, in memory of its own.
///
/// ```
/// let job = ropeclover::text::assemble("U 9 33\nU 2 32\nS 2\n").unwrap();
/// assert_eq!(ropeclover::cleaned(&job).unwrap(), b"S\0\0\0U\0\x20\0");
/// assert_eq!(ropeclover::cleaned(b"").unwrap_err().number(), 8);
/// ```
///
/// # Errors
/// Refusals 1 to 8.
pub fn cleaned(job: &[u8]) -> Result<Vec<u8>, Refusal> {
    let mut copy = vec![0; COPY_BYTES];
    let records = clean(job, &mut copy)?;
    copy.truncate(4 * records);
    Ok(copy)
}

/// A rule that is not in a clean copy, and why.
///
/// ```
/// use ropeclover::{text, LeftOut, Workspace};
///
/// // 1 has no rule, so the first rule is of no use; the last is never reached.
/// let job = text::assemble("S 0\nP 0 32 1\nU 0 33\nU 2 34\n").unwrap();
/// let left_out: Vec<LeftOut> = Workspace::new().clean(&job).unwrap().left_out;
/// let parts: Vec<_> = left_out.iter().map(|left| (left.rule, left.symbol, left.code)).collect();
/// assert_eq!(parts, [(*b"P\0\x20\x01", 1, 2), (*b"U\x02\x22\0", 2, 3)]);
/// ```
#[derive(Clone, Copy, Debug, PartialEq, Eq)]
pub struct LeftOut {
    /// The rule's record in the job.
    pub rule: [u8; 4],
    /// The first symbol of the body that derives no string; where each derives one, the head, which is never reached then.
    pub symbol: u8,
    /// That symbol's code: 2 derives no terminal string, 3 never reached from the start.
    pub code: u8,
}

impl LeftOut {
    /// What is said of a rule that is left out, by the codes; none of one that stays.
    fn new(rule: [u8; 4], codes: &[u8; CODES]) -> Option<LeftOut> {
        let (head, body) = production(&padded(rule))?;
        let code = |symbol: u8| codes[usize::from(symbol)];
        // Where the whole body derives strings, the rule is useful if its head is.
        let without_string = body.into_iter().find(|symbol| code(*symbol) == DERIVES_NO_STRING);
        let symbol = without_string.or_else(|| (code(head) != USEFUL).then_some(head))?;
        Some(LeftOut { rule, symbol, code: code(symbol) })
    }
}

/// The rules of a job by their ranks.
fn rules_by_rank(job: &[u8]) -> Vec<[u8; 4]> {
    let records = job.chunks_exact(4).filter_map(|bytes| <[u8; 4]>::try_from(bytes).ok());
    let mut rules: Vec<[u8; 4]> = records.filter(|record| production(&padded(*record)).is_some()).collect();
    rules.sort_by_key(|[kind, head, second, third]| [*head, *kind, *second, *third]);
    rules
}

/// A clean copy, and what became of the job's symbols and rules; see [`Workspace::clean`].
///
/// [`Workspace::clean`]: crate::Workspace::clean
///
/// ```
/// use ropeclover::{text, CleanCopy, Workspace};
///
/// let text = text::read("name 4 go\nname 7 old\nname 32 \"G\"\nS go\nU go \"G\"\nU old 33\n").unwrap();
/// let copy: CleanCopy = Workspace::new().clean(&text.bytes).unwrap();
/// let names = copy.names(&text.names);
/// assert_eq!(text::print(&copy.job, &names).unwrap(), "name 0 go\nname 32 \"G\"\nS go 0 0\nU go \"G\" 0\n");
/// ```
#[derive(Clone, Debug, PartialEq, Eq)]
pub struct CleanCopy {
    /// The copy, a job.
    pub job: Vec<u8>,
    /// The rules that are not in it, by their ranks in the job.
    pub left_out: Vec<LeftOut>,
    /// Whether the language is empty, so that the copy is S 0 0 0.
    pub empty: bool,
    codes: [u8; CODES],
    start: Option<u8>,
}

impl CleanCopy {
    /// The copy of a job that has these verdicts.
    pub(crate) fn new(job: &[u8], empty: bool, codes: [u8; CODES]) -> Result<Self, Refusal> {
        let left_out = rules_by_rank(job).into_iter().filter_map(|rule| LeftOut::new(rule, &codes)).collect();
        Ok(CleanCopy { job: cleaned(job)?, left_out, empty, codes, start: start_symbol(job) })
    }

    /// The number that a symbol of the job has in the copy; none where it is not in the copy. The start symbol always is, even if it is useless.
    ///
    /// ```
    /// let job = ropeclover::text::assemble("S 9\nP 9 4 40\nE 4\nE 5\n").unwrap();
    /// let copy = ropeclover::Workspace::new().clean(&job).unwrap();
    /// assert_eq!([4, 5, 9, 40, 41].map(|symbol| copy.number(symbol)), [Some(0), None, Some(1), Some(40), None]);
    /// ```
    pub fn number(&self, symbol: u8) -> Option<u8> {
        let is_useful = self.codes.get(usize::from(symbol)) == Some(&USEFUL);
        if !is_useful && self.start != Some(symbol) {
            return None;
        }
        let below = || self.codes[..usize::from(symbol)].iter().filter(|code| **code == USEFUL).count() as u8;
        Some(if symbol < 32 { below() } else { symbol })
    }

    /// The names of the copy's symbols, by the names of the job's. States have none, as the copy has no states.
    ///
    /// ```
    /// let read = ropeclover::text::read("name 6 go\nname 7 old\nS go\nE go\nE old\n").unwrap();
    /// let names = ropeclover::Workspace::new().clean(&read.bytes).unwrap().names(&read.names);
    /// assert_eq!((names.symbol_name(0), names.find_symbol("old")), (Some("go"), None));
    /// ```
    pub fn names(&self, names: &Names) -> Names {
        let mut carried = Names::default();
        for symbol in 0..CODES as u8 {
            if let (Some(number), Some(name)) = (self.number(symbol), names.symbol_name(symbol)) {
                carried.name_symbol(number, name);
            }
        }
        carried
    }
}
