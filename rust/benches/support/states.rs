//! The number of states as one would write it in Rust.

/// One more than the largest state in a T, I or F record, 0 if there is none.
pub fn count(job: &[u8]) -> u64 {
    job.chunks_exact(4)
        .map(|r| match r[0] {
            b'T' => u64::from(r[1].max(r[3])) + 1,
            b'I' | b'F' => u64::from(r[1]) + 1,
            _ => 0,
        })
        .max()
        .unwrap_or(0)
}
