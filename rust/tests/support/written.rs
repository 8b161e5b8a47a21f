//! A call that writes a job into a lent buffer, compared with what an implementation written apart expects of it.
use super::jobs::Record;
use super::machine::Refused;
use super::run::refusal;
use super::Guarded;

const FILL: u8 = 0x77;

/// Compares a call on a buffer of a length with the records that are expected, byte for byte, all between guards. The number of the refusal, 0 for
/// none.
pub fn compare(
    call: impl Fn(&[u8], &mut [u8]) -> Result<usize, ropeclover::Refusal>,
    input: &[u8],
    length: usize,
    expected: Result<Vec<Record>, Refused>,
) -> u64 {
    let (input, mut job) = (Guarded::new(input, 0x5a), Guarded::new(&vec![FILL; length], 0xa5));
    let before = input.get().to_vec();
    let found = refusal(call(input.get(), job.get_mut()));
    assert_eq!(found, expected.as_ref().map(Vec::len).map_err(|refusal| *refusal));
    let mut left = expected.as_ref().map_or(vec![], |records| records.concat());
    left.resize(length, FILL);
    assert_eq!(job.get(), left, "the buffer");
    assert_eq!(input.get(), before, "the input is only read");
    job.check();
    expected.err().map_or(0, |(number, _)| number)
}
