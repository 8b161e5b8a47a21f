//! The second of two runs: the same records in another order.
use crate::random::Random;

/// The job's records in an order that the seed chooses. Every answer on it is the answer on the job itself: checking both guards against a
/// fault anywhere between the grammar and the answer.
///
/// ```
/// use ropeclover::{shuffled, text, Workspace};
///
/// let job = text::assemble("S 0\nU 0 32\nI 0\nF 1\nT 0 32 1\n").unwrap();
/// let mut workspace = Workspace::new();
/// assert_eq!(workspace.report(&job), workspace.report(&shuffled(&job, 7)));
/// ```
pub fn shuffled(job: &[u8], seed: u64) -> Vec<u8> {
    let mut records: Vec<&[u8]> = job.chunks(4).collect();
    Random(seed).shuffle(&mut records);
    records.concat()
}
