//! A run on a bit table: a list of calls on one job, one bit table and one set of reasons, made by the library and by the machine written apart from
//! it. Answers, bits and reasons are compared whole; buffers stand between guards.
use super::bits::{self, HALF};
use super::jobs::Pairs;
use super::run::{length, reasons, refusal, steps};
use super::{Guarded, Random};

/// Bytes of which this many in 65,536 bits are ones.
fn bytes(random: &mut Random, length: usize, ones: usize) -> Vec<u8> {
    let mut bit = |_| u8::from(random.below(65_536) < ones);
    (0..length).map(|_| (0..8).map(&mut bit).fold(0, |byte, bit| 2 * byte + bit)).collect()
}

/// Both halves of a bit table, each with a density of its own: from none of its bits over some twenty of them to all.
pub fn halves(random: &mut Random) -> Vec<u8> {
    let densities = [0, 20, 700, 32_768, 64_836, 65_536];
    let (pending, done) = (*random.pick(&densities), *random.pick(&densities));
    [bytes(random, HALF, pending), bytes(random, HALF, done)].concat()
}

/// What the calls of runs met, to see that they mean something.
#[derive(Debug, Default)]
pub struct Met {
    pub started: u64,
    pub steps: u64,
    pub meetings: u64,
    pub finished: u64,
    pub accepted: u64,
    pub refused: u64,
}

pub struct Run {
    job: Vec<u8>,
    pairs: Pairs,
    bits: Guarded<u8>,
    reasons: Guarded<u32>,
    expected_bits: Vec<u8>,
    expected_reasons: Vec<u32>,
}

impl Run {
    /// A run on a job, with memory that holds anything; where it is longer than is used, past the ends as well.
    pub fn new(random: &mut Random, job: Vec<u8>, pairs: Pairs) -> Run {
        let mut bits = halves(random);
        let rest = bytes(random, 100, 32_768);
        bits.extend(rest);
        bits.truncate(length(random, 2 * HALF));
        let length = length(random, 32_768);
        let reasons = reasons(random, length);
        Run {
            job,
            pairs,
            bits: Guarded::new(&bits, 0xa5),
            reasons: Guarded::new(&reasons, 0xa5a5_a5a5),
            expected_bits: bits,
            expected_reasons: reasons,
        }
    }

    /// Makes one call, whichever it is, on both sides.
    pub fn call(&mut self, random: &mut Random, met: &mut Met) {
        let (bits, reasons) = (self.bits.get_mut(), self.reasons.get_mut());
        let (b, r) = (&mut self.expected_bits[..], &mut self.expected_reasons[..]);
        match random.below(8) {
            0 => {
                let found = refusal(ropeclover::bits::start(&self.job, bits, reasons));
                assert_eq!(found, bits::start(&self.job, b, r));
                met.started += u64::from(found.is_ok());
                met.refused += u64::from(found.is_err());
            }
            1..=4 => {
                let n = steps(random);
                let found = refusal(ropeclover::bits::advance(&self.job, bits, reasons, n));
                let found = found.map(|a| (a.finished, a.steps, a.meetings));
                assert_eq!(found, bits::advance(&self.job, b, r, n));
                let (finished, steps, meetings) = found.unwrap_or_default();
                met.finished += u64::from(finished);
                met.steps += steps;
                met.meetings += meetings;
            }
            5 | 6 => {
                let form = self.pairs.form(random, &self.job);
                let found = refusal(ropeclover::bits::ask(&self.job, bits, &form));
                assert_eq!(found, bits::ask(&self.job, b, &form));
                met.accepted += u64::from(found == Ok(true));
            }
            _ => assert_eq!(refusal(ropeclover::bits::done_count(bits)), bits::done_count(b)),
        }
        self.compare();
    }

    fn compare(&self) {
        assert!(self.bits.get() == &self.expected_bits[..], "bit tables differ");
        assert!(self.reasons.get() == &self.expected_reasons[..], "reasons differ");
        self.bits.check();
        self.reasons.check();
    }
}
