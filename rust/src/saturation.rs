//! A job's table on its way: started, and finished.
use crate::listing::Transition;
use crate::{advance, ask, Advanced, Refusal, Workspace};

/// A table that a job's start wrote, and advances since.
///
/// ```
/// let job = ropeclover::text::assemble("S 0\nU 0 32\nI 0\nF 1\nT 0 32 1\n").unwrap();
/// let mut workspace = ropeclover::Workspace::new();
/// let mut started: ropeclover::Started<'_> = workspace.start(&job).unwrap();
/// assert_eq!(started.advance(1).steps, 1);
/// assert!(!started.is_finished());
/// ```
///
/// It cannot be asked before it is finished:
///
/// ```compile_fail
/// ropeclover::Workspace::new().start(b"S\0\0\0I\0\0\0").unwrap().ask(&[0]);
/// ```
#[derive(Debug)]
pub struct Started<'a> {
    workspace: &'a mut Workspace,
    job: &'a [u8],
    states: usize,
    total: Advanced,
}

impl<'a> Started<'a> {
    pub(crate) fn new(workspace: &'a mut Workspace, job: &'a [u8], states: usize) -> Self {
        Started { workspace, job, states, total: Advanced { finished: false, steps: 0, meetings: 0 } }
    }

    /// The number of states.
    ///
    /// ```
    /// assert_eq!(ropeclover::Workspace::new().start(b"S\0\0\0I\x04\0\0").unwrap().states(), 5);
    /// ```
    pub fn states(&self) -> usize {
        self.states
    }

    /// Makes at most `n` steps. The job was accepted at the start, so nothing is refused here.
    ///
    /// ```
    /// let mut workspace = ropeclover::Workspace::new();
    /// let mut started = workspace.start(b"S\0\0\0I\0\0\0T\0\x20\x01").unwrap();
    /// let advanced = started.advance(10);
    /// assert!(advanced.finished && advanced.steps == 1);
    /// ```
    pub fn advance(&mut self, n: u64) -> Advanced {
        let memory = &mut *self.workspace;
        let now = advance(self.job, &mut memory.table, &mut memory.reasons, n)
            .expect("start accepted this job, and advance makes the same checks");
        let (steps, meetings) = (self.total.steps + now.steps, self.total.meetings + now.meetings);
        self.total = Advanced { finished: now.finished, steps, meetings };
        now
    }

    /// Whether an advance has said that no transition is pending.
    ///
    /// ```
    /// let mut workspace = ropeclover::Workspace::new();
    /// let mut started = workspace.start(b"S\0\0\0I\0\0\0").unwrap();
    /// assert!(!started.is_finished());
    /// started.advance(0);
    /// assert!(started.is_finished());
    /// ```
    pub fn is_finished(&self) -> bool {
        self.total.finished
    }

    /// The sums of the advances so far.
    ///
    /// ```
    /// let mut workspace = ropeclover::Workspace::new();
    /// let mut started = workspace.start(b"S\0\0\0I\0\0\0T\0\x20\x01T\x01\x20\0").unwrap();
    /// started.advance(1);
    /// started.advance(1);
    /// assert_eq!(started.total().steps, 2);
    /// ```
    pub fn total(&self) -> Advanced {
        self.total
    }

    /// The memory as it stands.
    ///
    /// ```
    /// let mut workspace = ropeclover::Workspace::new();
    /// let started = workspace.start(b"S\0\0\0I\0\0\0T\0\x20\x01").unwrap();
    /// assert_eq!(started.memory().table()[32 * 32 + 1], 1);
    /// ```
    pub fn memory(&self) -> &Workspace {
        self.workspace
    }

    /// Makes the steps that are left.
    ///
    /// ```
    /// let mut workspace = ropeclover::Workspace::new();
    /// let finished = workspace.start(b"S\0\0\0I\0\0\0T\0\x20\x01").unwrap().finish();
    /// assert_eq!(finished.examined(), 1);
    /// ```
    pub fn finish(mut self) -> Finished<'a> {
        if !self.total.finished {
            self.advance(u64::MAX);
        }
        Finished { workspace: self.workspace, job: self.job, states: self.states, total: self.total }
    }
}

/// A finished table: the smallest set of transitions that holds the given ones and is closed under the rules.
///
/// ```
/// let job = ropeclover::text::assemble("S 0\nU 0 32\nI 0\nF 1\nT 0 32 1\n").unwrap();
/// let mut workspace = ropeclover::Workspace::new();
/// let finished: ropeclover::Finished<'_> = workspace.start(&job).unwrap().finish();
/// assert!(finished.holds((0, 0, 1)) && !finished.holds((1, 0, 0)));
/// ```
#[derive(Debug)]
pub struct Finished<'a> {
    workspace: &'a Workspace,
    job: &'a [u8],
    states: usize,
    total: Advanced,
}

impl Finished<'_> {
    /// The number of states.
    ///
    /// ```
    /// assert_eq!(ropeclover::Workspace::new().start(b"S\0\0\0I\x04\0\0").unwrap().finish().states(), 5);
    /// ```
    pub fn states(&self) -> usize {
        self.states
    }

    /// The transitions of the set.
    ///
    /// ```
    /// assert_eq!(ropeclover::Workspace::new().start(b"S\0\0\0I\0\0\0E\0\0\0").unwrap().finish().examined(), 1);
    /// ```
    pub fn examined(&self) -> u64 {
        self.total.steps
    }

    /// The pair meetings of the set.
    ///
    /// ```
    /// assert_eq!(ropeclover::Workspace::new().start(b"S\0\0\0I\0\0\0E\0\0\0P\0\0\0").unwrap().finish().joins(), 1);
    /// ```
    pub fn joins(&self) -> u64 {
        self.total.meetings
    }

    /// Whether the form derives a string of the given automaton.
    ///
    /// ```
    /// let job = ropeclover::text::assemble("S 0\nU 0 32\nI 0\nF 1\nT 0 32 1\n").unwrap();
    /// let mut workspace = ropeclover::Workspace::new();
    /// let finished = workspace.start(&job).unwrap().finish();
    /// assert_eq!((finished.ask(&[0]), finished.ask(&[0, 0])), (Ok(true), Ok(false)));
    /// assert_eq!(finished.ask(&[64]).unwrap_err().number(), 11);
    /// ```
    ///
    /// # Errors
    /// Refusals 12 and 11, of the form.
    pub fn ask(&self, form: &[u8]) -> Result<bool, Refusal> {
        ask(self.job, &self.workspace.table, form)
    }

    /// Whether a transition is in the set.
    ///
    /// ```
    /// let mut workspace = ropeclover::Workspace::new();
    /// let finished = workspace.start(b"S\0\0\0I\0\0\0T\0\x20\x01").unwrap().finish();
    /// assert!(finished.holds((0, 32, 1)) && !finished.holds((0, 32, 99)));
    /// ```
    pub fn holds(&self, (from, symbol, to): Transition) -> bool {
        let place = usize::from(from) * 2048 + usize::from(symbol) * 32 + usize::from(to);
        from < 32 && symbol < 64 && to < 32 && matches!(self.workspace.table[place], 2 | 3)
    }

    /// The memory.
    ///
    /// ```
    /// let mut workspace = ropeclover::Workspace::new();
    /// let finished = workspace.start(b"S\0\0\0I\0\0\0T\0\x20\x01").unwrap().finish();
    /// assert_eq!(finished.memory().table()[32 * 32 + 1], 2);
    /// ```
    pub fn memory(&self) -> &Workspace {
        self.workspace
    }
}
