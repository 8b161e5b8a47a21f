//! Random long jobs: many that are accepted, and damaged ones.
use super::jobs::Pairs;
use super::Random;

/// The bytes of a record: those given, then zeros.
pub fn padded(bytes: &[u8]) -> [u8; 12] {
    let mut record = [0; 12];
    record[..bytes.len()].copy_from_slice(bytes);
    record
}

/// The bytes of an L record.
pub fn rule(head: u8, body: &[u8]) -> [u8; 12] {
    padded(&[&[b'L', head, body.len() as u8], body].concat())
}

/// How many variables, terminals and states a long job uses, and what its P records hold.
struct Sizes {
    variables: usize,
    terminals: usize,
    states: usize,
    pairs: Pairs,
}

impl Sizes {
    fn new(random: &mut Random, pairs: Pairs) -> Sizes {
        let sizes = [1, 2, 3, 5, 8, 14];
        Sizes { variables: *random.pick(&sizes), terminals: *random.pick(&sizes), states: *random.pick(&sizes), pairs }
    }

    fn symbol(&self, random: &mut Random) -> u8 {
        match random.below(2) {
            0 => random.byte_below(self.variables),
            _ => 32 + random.byte_below(self.terminals),
        }
    }

    fn record(&self, random: &mut Random) -> [u8; 12] {
        let variable = |random: &mut Random| random.byte_below(self.variables);
        let paired = |random: &mut Random| self.pairs.symbol(random, self.variables, self.terminals);
        let state = |random: &mut Random| random.byte_below(self.states);
        match random.below(12) {
            0 => padded(&[b'E', variable(random)]),
            1 => padded(&[b'U', variable(random), self.symbol(random)]),
            2 | 3 => padded(&[b'P', variable(random), paired(random), paired(random)]),
            4 | 5 => padded(&[b'T', state(random), self.symbol(random), state(random)]),
            6 => padded(&[b'F', state(random)]),
            _ => {
                // Longer ones of the second sort, so that their tails take more variables than there are.
                let longest = match self.pairs {
                    Pairs::Variables => *random.pick(&[1, 2, 3, 3, 4, 8]),
                    Pairs::Symbols => *random.pick(&[2, 3, 8, 8]),
                };
                let body: Vec<u8> = (0..random.below(longest + 1)).map(|_| self.symbol(random)).collect();
                rule(random.byte_below(self.variables), &body)
            }
        }
    }
}

/// A long job that most often is accepted, its records in random order.
pub fn long_job(random: &mut Random, pairs: Pairs) -> Vec<[u8; 12]> {
    let sizes = Sizes::new(random, pairs);
    let most = *random.pick(&[4, 8, 16, 40]);
    let mut records: Vec<[u8; 12]> = (0..random.below(most)).map(|_| sizes.record(random)).collect();
    if !random.one_in(20) {
        records.sort();
        records.dedup();
    }
    for kind in *b"SI" {
        if !random.one_in(20) {
            records.push(padded(&[kind, random.byte_below(3)]));
        }
    }
    random.shuffle(&mut records);
    records
}

/// The bytes of a long job with something wrong, most often.
pub fn damaged(random: &mut Random, pairs: Pairs) -> Vec<u8> {
    let mut records = long_job(random, pairs);
    records.push(rule(random.byte_below(4), &[random.byte_below(64), random.byte_below(64)]));
    for _ in 0..1 + random.below(2) {
        let at = random.below(records.len());
        match random.below(6) {
            0 => records[at][random.below(12)] = random.next() as u8,
            1 => records[at][random.below(12)] ^= 1 << random.below(8),
            2 => records[at][2] = *random.pick(&[0, 1, 2, 7, 8, 9, 10, 255]),
            3 => records[at][11] = random.byte_below(3),
            4 => records.push(records[at]),
            _ => records.push(padded(&[*random.pick(b"SIFTEUPLX"), random.byte_below(34)])),
        }
    }
    let mut text = records.concat();
    if random.one_in(8) {
        text.truncate(random.below(text.len()));
    }
    text
}
