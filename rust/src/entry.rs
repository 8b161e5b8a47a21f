//! An entry of the reasons: why a transition is there, and when it was learned.

/// The reason in an entry: 0 none, 65535 given, else 1 + 32 × the rule's rank + the middle state.
///
/// ```
/// let job = ropeclover::text::assemble("S 0\nU 0 32\nI 0\nF 1\nT 0 32 1\nT 1 3 0\n").unwrap();
/// let mut workspace = ropeclover::Workspace::new();
/// workspace.start(&job).unwrap().finish();
/// // (0, 0, 1) is there by the rule of rank 0, (1, 3, 0) is given, (0, 0, 0) is not there.
/// let reasons = [1, 1024 + 3 * 32, 0].map(|at| ropeclover::reason_of(workspace.reasons()[at]));
/// assert_eq!(reasons, [1, 65_535, 0]);
/// ```
pub const fn reason_of(entry: u32) -> u16 {
    (entry % 65_536) as u16
}

/// The turn in an entry: 0 for what a start writes, given or by a rule A → ε; for what a step adds, the number of done transitions right after that
/// step.
///
/// Turns fall along reasons: the transitions of variables that a reason names have smaller turns than the one that has the reason. That is proved of
/// the library, from a start on and until something other than an advance or an explain of the same job writes table or reasons.
///
/// ```
/// let job = ropeclover::text::assemble("S 0\nU 0 1\nU 1 32\nI 0\nF 1\nT 0 32 1\n").unwrap();
/// let mut workspace = ropeclover::Workspace::new();
/// workspace.start(&job).unwrap().finish();
/// // The first step takes (0, 32, 1) and adds (0, 1, 1), the second takes that and adds (0, 0, 1).
/// let turns = [32 + 1, 1].map(|at| ropeclover::turn_of(workspace.reasons()[at]));
/// assert_eq!(turns, [1, 2]);
/// ```
pub const fn turn_of(entry: u32) -> u16 {
    (entry / 65_536) as u16
}
