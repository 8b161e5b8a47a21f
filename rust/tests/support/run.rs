//! A run: a list of calls on one job, one table and one set of reasons, made by the library and by the machine written apart from it. Answers, tables,
//! reasons, listings, codes and the record shown are compared byte for byte; buffers stand between guards.
use super::jobs::Pairs;
use super::{machine, Guarded, Random};

/// A refusal as its number and place.
pub fn refusal<T>(result: Result<T, ropeclover::Refusal>) -> Result<T, machine::Refused> {
    result.map_err(|r| (r.number(), r.place()))
}

/// A length now and then a little short, now and then longer than is used.
pub fn length(random: &mut Random, full: usize) -> usize {
    match random.below(16) {
        0 => full - 1,
        1 => random.below(full),
        2 => full + 1 + random.below(50),
        _ => full,
    }
}

fn table(random: &mut Random) -> Vec<u8> {
    let length = length(random, 65_536);
    match random.below(6) {
        0 => vec![255; length],
        1 => (0..length).map(|_| random.next() as u8).collect(),
        // Sparse: a few bytes of each kind.
        2 => (0..length).map(|_| if random.one_in(500) { random.byte_below(6) } else { 0 }).collect(),
        n => vec![n as u8 - 3; length],
    }
}

/// Reasons that no start wrote: any numbers of 32 bits.
pub fn reasons(random: &mut Random, length: usize) -> Vec<u32> {
    (0..length).map(|_| random.next() as u32).collect()
}

pub fn steps(random: &mut Random) -> u64 {
    match random.below(6) {
        0 => 0,
        1 => 1,
        2 => u64::MAX,
        _ => random.below(40) as u64,
    }
}

pub struct Run {
    job: Vec<u8>,
    pairs: Pairs,
    table: Guarded<u8>,
    reasons: Guarded<u32>,
    expected_table: Vec<u8>,
    expected_reasons: Vec<u32>,
}

impl Run {
    /// A run on a job, with memory that holds anything.
    pub fn new(random: &mut Random, job: Vec<u8>, pairs: Pairs) -> Run {
        let table = table(random);
        let length = length(random, 32_768);
        let reasons = reasons(random, length);
        Run {
            job,
            pairs,
            table: Guarded::new(&table, 0xa5),
            reasons: Guarded::new(&reasons, 0xa5a5_a5a5),
            expected_table: table,
            expected_reasons: reasons,
        }
    }

    /// Makes one call, whichever it is, on both sides.
    pub fn call(&mut self, random: &mut Random) {
        let (table, reasons) = (self.table.get_mut(), self.reasons.get_mut());
        let (t, r) = (&mut self.expected_table[..], &mut self.expected_reasons[..]);
        match random.below(8) {
            0 | 1 => assert_eq!(refusal(ropeclover::start(&self.job, table, reasons)), machine::start(&self.job, t, r)),
            2..=4 => {
                let n = steps(random);
                let found = refusal(ropeclover::advance(&self.job, table, reasons, n));
                assert_eq!(found.map(|a| (a.finished, a.steps, a.meetings)), machine::advance(&self.job, t, r, n));
            }
            5 => {
                let form = self.pairs.form(random, &self.job);
                assert_eq!(refusal(ropeclover::ask(&self.job, table, &form)), machine::ask(&self.job, t, &form));
            }
            6 => self.explain(random),
            _ => {
                let length = *random.pick(&[63, 64, 65]);
                let mut codes = Guarded::new(&vec![9; length], 0xa5);
                let mut c = vec![9; length];
                let found = refusal(ropeclover::verdicts(&self.job, table, codes.get_mut()));
                assert_eq!(found.map(|v| (v.empty, v.growing)), machine::verdicts(&self.job, t, &mut c));
                assert_eq!(codes.get(), &c[..], "codes");
                codes.check();
            }
        }
        self.compare();
    }

    fn explain(&mut self, random: &mut Random) {
        let form = self.pairs.form(random, &self.job);
        let length = *random.pick(&[0, 7, 8, 16, 80, 801, 20_000]);
        let mut listing = Guarded::new(&vec![7; length], 0xa5);
        let mut l = vec![7; length];
        let found = refusal(ropeclover::explain(
            &self.job,
            self.table.get_mut(),
            self.reasons.get_mut(),
            &form,
            listing.get_mut(),
        ));
        let expected = machine::explain(&self.job, &mut self.expected_table, &mut self.expected_reasons, &form, &mut l);
        assert_eq!(found.map(|e| (e.accepted, e.records as u64)), expected);
        assert_eq!(listing.get(), &l[..], "listing");
        listing.check();
    }

    fn compare(&self) {
        assert!(self.table.get() == &self.expected_table[..], "tables differ");
        assert!(self.reasons.get() == &self.expected_reasons[..], "reasons differ");
        self.table.check();
        self.reasons.check();
        assert_eq!(ropeclover::show_refused(&self.job), &machine::show(&self.job)[..]);
    }
}
