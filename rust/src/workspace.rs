//! Owned memory for the library's calls, and types that say what it holds.
use crate::format::start_symbol;
use crate::listing::{Record, Transition};
use crate::{explain, sequence, start, turn_of, verdicts, CleanCopy, Refusal, Started, Verdicts};
use crate::{CODES, LISTING_BYTES, LISTING_RECORD_BYTES, REASONS, TABLE_BYTES};
use std::fmt;

/// A table and reasons of the right lengths. [`start`](Workspace::start) gives a [`Started`], which becomes a
/// [`Finished`](crate::Finished), and only that can be asked. Two are equal if their tables and reasons are.
///
/// ```
/// use ropeclover::{text, Workspace};
///
/// let job = text::assemble("S 0\nU 0 32\nI 0\nF 1\nT 0 32 1\n").unwrap();
/// let mut workspace = Workspace::new();
/// assert!(workspace.start(&job).unwrap().finish().ask(&[0]).unwrap());
/// assert_eq!(format!("{workspace:?}"), "Workspace { pending: 0, done: 2, listed: 0 }");
/// ```
#[derive(Clone)]
pub struct Workspace {
    pub(crate) table: Vec<u8>,
    pub(crate) reasons: Vec<u32>,
    /// Memory for the longest listing, once a form was explained: lent less, explain would have to run again.
    listing: Vec<u8>,
}

/// What the report prints.
///
/// ```
/// let job = ropeclover::text::assemble("S 0\nE 0\nI 0\nF 0\n").unwrap();
/// let report: ropeclover::Report = ropeclover::Workspace::new().report(&job).unwrap();
/// assert_eq!((report.states, report.examined, report.joins), (1, 1, 0));
/// ```
#[derive(Clone, Copy, Debug, PartialEq, Eq)]
pub struct Report {
    /// The number of states: one more than the largest in a T, I or F record.
    pub states: usize,
    /// The transitions of the smallest set that holds the given ones and is closed under the rules.
    pub examined: u64,
    /// Its pair meetings: the ways a pair rule meets two adjoining transitions.
    pub joins: u64,
    /// Whether the start symbol alone is accepted.
    pub start: bool,
    /// Whether the language is empty.
    pub empty: bool,
    /// Whether it is infinite.
    pub growing: bool,
}

/// An explained form.
///
/// ```
/// let job = ropeclover::text::assemble("S 0\nU 0 32\nI 0\nF 0\nT 0 32 0\n").unwrap();
/// let explanation: ropeclover::Explanation = ropeclover::Workspace::new().explain(&job, &[32, 0]).unwrap();
/// assert_eq!(explanation.sequence, [0, 0, 0]);
/// assert_eq!(explanation.steps(), [(0, 32, 0), (0, 0, 0)]);
/// ```
#[derive(Clone, Debug, PartialEq, Eq)]
pub struct Explanation {
    /// Whether the form is accepted.
    pub accepted: bool,
    /// The form.
    pub form: Vec<u8>,
    /// The accepting states, one more than the form has symbols: the sequence that comes first in lexicographic order. Empty where the form is
    /// not accepted.
    pub sequence: Vec<u8>,
    /// Why: each record after its premises. Empty where the form is not accepted.
    pub records: Vec<Record>,
}

impl Explanation {
    /// The transitions along the accepting sequence, one for each symbol of the form; none where it is not accepted.
    ///
    /// ```
    /// let job = ropeclover::text::assemble("S 0\nI 0\n").unwrap();
    /// assert!(ropeclover::Workspace::new().explain(&job, &[0]).unwrap().steps().is_empty());
    /// ```
    pub fn steps(&self) -> Vec<Transition> {
        let pairs = self.sequence.iter().zip(self.sequence.iter().skip(1));
        pairs.zip(&self.form).map(|((from, to), symbol)| (*from, *symbol, *to)).collect()
    }
}

impl Default for Workspace {
    fn default() -> Self {
        Self::new()
    }
}

impl PartialEq for Workspace {
    fn eq(&self, other: &Self) -> bool {
        self.table == other.table && self.reasons == other.reasons
    }
}

impl Eq for Workspace {}

/// Counts of the table's bytes; the memory itself is too long to print.
impl fmt::Debug for Workspace {
    fn fmt(&self, f: &mut fmt::Formatter<'_>) -> fmt::Result {
        let count = |value: u8| self.table.iter().filter(|byte| **byte == value).count();
        f.debug_struct("Workspace")
            .field("pending", &count(1))
            .field("done", &count(2))
            .field("listed", &count(3))
            .finish()
    }
}

impl Workspace {
    /// A table and reasons, all 0.
    ///
    /// ```
    /// assert!(ropeclover::Workspace::new().table().iter().all(|byte| *byte == 0));
    /// ```
    pub fn new() -> Self {
        Workspace { table: vec![0; TABLE_BYTES], reasons: vec![0; REASONS], listing: Vec::new() }
    }

    /// The table, a byte for each transition (q, X, r) at q × 2048 + X × 32 + r: 0 absent, 1 pending, 2 done, 3 done and listed.
    ///
    /// ```
    /// let mut workspace = ropeclover::Workspace::new();
    /// workspace.start(b"S\0\0\0I\0\0\0T\0\x20\x01").unwrap();
    /// assert_eq!(workspace.table()[32 * 32 + 1], 1);
    /// ```
    pub fn table(&self) -> &[u8] {
        &self.table
    }

    /// The reasons, an entry for each transition (q, A, r) of a variable at q × 1024 + A × 32 + r: its reason + 65536 × its turn.
    /// [`reason_of`](crate::reason_of) and [`turn_of`] take an entry apart, and say what the two mean.
    ///
    /// ```
    /// let mut workspace = ropeclover::Workspace::new();
    /// workspace.start(b"S\0\0\0I\0\0\0T\0\x03\x01").unwrap();
    /// assert_eq!(workspace.reasons()[3 * 32 + 1], 65_535);
    /// ```
    pub fn reasons(&self) -> &[u32] {
        &self.reasons
    }

    /// The turn of a transition: when it was learned, as [`turn_of`] says. It is 0 for a terminal's, which is there from the start if at all, and for
    /// one that is not there.
    ///
    /// ```
    /// let job = ropeclover::text::assemble("S 0\nP 0 32 33\nI 0\nF 2\nT 0 32 1\nT 1 33 2\n").unwrap();
    /// let mut workspace = ropeclover::Workspace::new();
    /// workspace.explain(&job, &[0]).unwrap();
    /// // Two transitions were done when (0, 0, 2) was learned.
    /// assert_eq!((workspace.turn((0, 0, 2)), workspace.turn((0, 32, 1)), workspace.turn((0, 0, 99))), (2, 0, 0));
    /// ```
    pub fn turn(&self, (from, symbol, to): Transition) -> u16 {
        if from > 31 || symbol > 31 || to > 31 {
            return 0;
        }
        turn_of(self.reasons[usize::from(from) * 1024 + usize::from(symbol) * 32 + usize::from(to)])
    }

    /// Starts a job: the memory holds the table and reasons that it starts from.
    ///
    /// ```
    /// let mut workspace = ropeclover::Workspace::new();
    /// assert_eq!(workspace.start(b"S\0\0\0I\x02\0\0").unwrap().states(), 3);
    /// assert_eq!(workspace.start(b"").unwrap_err().number(), 8);
    /// ```
    ///
    /// # Errors
    /// Refusals 1 to 9; the memory is left as it was.
    pub fn start<'a>(&'a mut self, job: &'a [u8]) -> Result<Started<'a>, Refusal> {
        let states = start(job, &mut self.table, &mut self.reasons)?;
        Ok(Started::new(self, job, states))
    }

    /// The verdicts and a code for each symbol. The table is left 0, the reasons as they were.
    ///
    /// ```
    /// let (verdicts, codes) = ropeclover::Workspace::new().verdicts(b"S\0\0\0U\0\x20\0").unwrap();
    /// assert!(!verdicts.empty);
    /// assert_eq!((codes[0], codes[32], codes[33]), (1, 1, 0));
    /// ```
    ///
    /// # Errors
    /// Refusals 1 to 8; the memory is left as it was.
    pub fn verdicts(&mut self, job: &[u8]) -> Result<(Verdicts, [u8; CODES]), Refusal> {
        let mut codes = [0; CODES];
        let verdicts = verdicts(job, &mut self.table, &mut codes)?;
        Ok((verdicts, codes))
    }

    /// The clean copy of a job, with what it leaves out. The table is left 0, the reasons as they were. [`cleaned`](crate::cleaned) gives the copy
    /// alone.
    ///
    /// ```
    /// let job = ropeclover::text::assemble("S 4\nU 4 32\nU 7 33\n").unwrap();
    /// let copy = ropeclover::Workspace::new().clean(&job).unwrap();
    /// assert_eq!(copy.job, b"S\0\0\0U\0\x20\0");
    /// assert_eq!(copy.left_out[0].rule, *b"U\x07\x21\0");
    /// ```
    ///
    /// # Errors
    /// Refusals 1 to 8; the memory is left as it was.
    pub fn clean(&mut self, job: &[u8]) -> Result<CleanCopy, Refusal> {
        let (verdicts, codes) = self.verdicts(job)?;
        CleanCopy::new(job, verdicts.empty, codes)
    }

    /// Explains a form: saturates once, and lists why it is accepted. The memory holds the finished table afterwards, listed transitions as 3; with the
    /// first explanation it grows by [`LISTING_BYTES`].
    ///
    /// ```
    /// let job = ropeclover::text::assemble("S 0\nU 0 32\nI 0\nF 1\nT 0 32 1\n").unwrap();
    /// let explanation = ropeclover::Workspace::new().explain(&job, &[0]).unwrap();
    /// assert!(explanation.accepted);
    /// assert_eq!(explanation.sequence, [0, 1]);
    /// assert_eq!(explanation.records.len(), 2);
    /// ```
    ///
    /// # Errors
    /// Refusals 1 to 9, 12 and 11; the memory is left as it was.
    pub fn explain(&mut self, job: &[u8], form: &[u8]) -> Result<Explanation, Refusal> {
        if self.listing.is_empty() {
            self.listing = vec![0; LISTING_BYTES];
        }
        let explained = explain(job, &mut self.table, &mut self.reasons, form, &mut self.listing)?;
        let accepted = explained.accepted;
        let sequence = if accepted { sequence::first(job, &self.table, form).unwrap_or_default() } else { Vec::new() };
        let listed = self.listing.chunks_exact(LISTING_RECORD_BYTES).take(explained.records);
        let records = listed.filter_map(Record::from_bytes).collect();
        Ok(Explanation { accepted, form: form.to_vec(), sequence, records })
    }

    /// What the report prints. Afterwards the table is 0, as the verdicts leave it, and the reasons are those of the finished table: start again
    /// to ask.
    ///
    /// ```
    /// let job = ropeclover::text::assemble("S 0\nU 0 32\nI 0\nF 1\nT 0 32 1\n").unwrap();
    /// let mut workspace = ropeclover::Workspace::new();
    /// let report = workspace.report(&job).unwrap();
    /// assert!(report.start && !report.empty && !report.growing);
    /// assert!(workspace.table().iter().all(|byte| *byte == 0));
    /// ```
    ///
    /// # Errors
    /// Refusals 1 to 9; the memory is left as it was.
    pub fn report(&mut self, job: &[u8]) -> Result<Report, Refusal> {
        let finished = self.start(job)?.finish();
        let (states, examined, joins) = (finished.states(), finished.examined(), finished.joins());
        let start = finished.ask(&start_symbol(job).into_iter().collect::<Vec<u8>>())?;
        let (verdicts, _) = self.verdicts(job)?;
        Ok(Report { states, examined, joins, start, empty: verdicts.empty, growing: verdicts.growing })
    }
}
