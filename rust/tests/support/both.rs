//! A job on a table of bytes and on a bit table at once.
use super::bits::{bit, byte_says, says, Says, HALF};
use super::bits_run::halves;
use super::jobs::{self, Pairs};
use super::run::reasons;
use super::Random;
use ropeclover::{advance, bits, start, Advanced};

/// The two tables, each with its reasons.
pub struct Both {
    pub job: Vec<u8>,
    /// What random forms for the job are made of.
    pub pairs: Pairs,
    pub table: Vec<u8>,
    pub table_reasons: Vec<u32>,
    pub bits: Vec<u8>,
    pub bits_reasons: Vec<u32>,
}

/// The bit table that says of each place what a table of bytes says.
fn bits_of(table: &[u8]) -> Vec<u8> {
    let mut bits = vec![0; 2 * HALF];
    for (place, byte) in table.iter().enumerate() {
        let (at, bit) = bit(place);
        match byte_says(*byte) {
            Says::Absent => {}
            Says::Pending => bits[at] |= bit,
            Says::Done => bits[HALF + at] |= bit,
        }
    }
    bits
}

impl Both {
    /// A job on this table and these reasons.
    pub fn new(job: Vec<u8>, table: Vec<u8>, reasons: Vec<u32>) -> Both {
        let bits = bits_of(&table);
        Both { job, pairs: Pairs::Symbols, table, table_reasons: reasons.clone(), bits, bits_reasons: reasons }
    }

    /// A random job that start takes, on a bit table that holds anything and bytes that say the same of each place.
    pub fn random(random: &mut Random, pairs: Pairs) -> Both {
        let job = jobs::started(random, pairs);
        let (bits, reasons) = (halves(random), reasons(random, 32_768));
        let mut byte = |place| match says(&bits, place) {
            Says::Absent => *random.pick(&[0, 4, 255]),
            Says::Pending => 1,
            Says::Done => *random.pick(&[2, 3]),
        };
        let table = (0..65_536).map(&mut byte).collect();
        Both { job, pairs, table, table_reasons: reasons.clone(), bits, bits_reasons: reasons }
    }

    pub fn start(&mut self) {
        let states = start(&self.job, &mut self.table, &mut self.table_reasons);
        assert!(states.is_ok());
        assert_eq!(bits::start(&self.job, &mut self.bits, &mut self.bits_reasons), states);
    }

    pub fn advance(&mut self, n: u64) -> Advanced {
        let advanced = advance(&self.job, &mut self.table, &mut self.table_reasons, n).unwrap();
        assert_eq!(bits::advance(&self.job, &mut self.bits, &mut self.bits_reasons, n), Ok(advanced));
        advanced
    }

    /// Checks that the bytes are this table, that the bits say the same, and that both have these reasons.
    pub fn holds(&self, table: &[u8], entries: &[u32]) {
        let differing = (0..32_768).find(|at| self.table_reasons[*at] != entries[*at]);
        assert_eq!(differing.map(|at| (at, self.table_reasons[at], entries[at])), None, "place, entry and expected");
        assert!(self.table == table && self.bits_reasons == entries);
        assert!((0..65_536).all(|place| says(&self.bits, place) == byte_says(table[place])));
    }
}
