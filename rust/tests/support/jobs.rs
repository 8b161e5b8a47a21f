//! Random jobs: accepted ones of many shapes, and damaged ones.
use super::{machine, Random};
use std::collections::BTreeSet;

pub type Record = [u8; 4];

/// What the bodies of the pair rules hold, which tells the jobs and forms of some tests from those of others.
#[derive(Clone, Copy, Debug, PartialEq, Eq)]
pub enum Pairs {
    Variables,
    Symbols,
}

impl Pairs {
    /// How many variables, terminals or states a job has; where pairs hold terminals, few more often, so that these meet.
    fn size(self, random: &mut Random) -> usize {
        match self {
            Pairs::Variables => *random.pick(&[1, 2, 3, 5, 8, 32]),
            Pairs::Symbols => *random.pick(&[1, 2, 2, 3, 3, 3, 4, 5, 8, 32]),
        }
    }

    /// A symbol of a pair's body.
    pub fn symbol(self, random: &mut Random, variables: usize, terminals: usize) -> u8 {
        if self == Pairs::Symbols && random.one_in(2) {
            return 32 + random.byte_below(terminals);
        }
        random.byte_below(variables)
    }

    /// A form for a job, whatever the order of its records: any, or where pairs hold terminals most often the head or the body of one.
    pub fn form(self, random: &mut Random, job: &[u8]) -> Vec<u8> {
        let mut rules: Vec<&[u8]> = job.chunks_exact(4).filter(|record| record[0] == b'P').collect();
        rules.sort();
        if self == Pairs::Variables || rules.is_empty() || random.one_in(4) {
            return form(random);
        }
        let [_, head, body @ ..] = *random.pick(&rules) else { unreachable!("a record has four bytes") };
        if random.one_in(3) {
            body.to_vec()
        } else {
            vec![*head]
        }
    }
}

pub fn rule(random: &mut Random, variables: usize, terminals: usize, pairs: Pairs) -> Record {
    let head = random.byte_below(variables);
    match random.below(10) {
        0 => [b'E', head, 0, 0],
        1 | 2 => [b'U', head, random.byte_below(variables), 0],
        3 | 4 => [b'U', head, 32 + random.byte_below(terminals), 0],
        _ => [b'P', head, pairs.symbol(random, variables, terminals), pairs.symbol(random, variables, terminals)],
    }
}

/// An accepted job, its records in random order.
pub fn accepted(random: &mut Random, pairs: Pairs) -> Vec<u8> {
    let (variables, terminals, states) = (pairs.size(random), pairs.size(random), pairs.size(random));
    let mut records: BTreeSet<Record> = BTreeSet::new();
    for _ in 0..random.below(40) {
        records.insert(rule(random, variables, terminals, pairs));
    }
    for _ in 0..random.below(60) {
        let symbol = if random.one_in(3) { random.byte_below(variables) } else { 32 + random.byte_below(terminals) };
        records.insert([b'T', random.byte_below(states), symbol, random.byte_below(states)]);
    }
    for _ in 0..random.below(3) {
        records.insert([b'F', random.byte_below(states), 0, 0]);
    }
    records.insert([b'S', random.byte_below(variables), 0, 0]);
    if !random.one_in(10) {
        records.insert([b'I', random.byte_below(states), 0, 0]);
    }
    let mut records: Vec<Record> = records.into_iter().collect();
    random.shuffle(&mut records);
    records.concat()
}

/// An accepted job without T, I and F records that has few rules for its variables, so that often some are of use and others are not.
pub fn sparse(random: &mut Random) -> Vec<u8> {
    let (variables, terminals) = (3 + random.below(6), 1 + random.below(4));
    let count = variables + random.below(variables + 2);
    let rules: BTreeSet<Record> = (0..count).map(|_| rule(random, variables, terminals, Pairs::Symbols)).collect();
    let mut records: Vec<Record> = rules.into_iter().chain([[b'S', random.byte_below(variables), 0, 0]]).collect();
    random.shuffle(&mut records);
    records.concat()
}

/// An accepted job that start takes, too: it has an I record.
pub fn started(random: &mut Random, pairs: Pairs) -> Vec<u8> {
    let mut jobs = std::iter::repeat_with(|| accepted(random, pairs));
    jobs.find(|job| job.chunks(4).any(|record| record[0] == b'I')).unwrap()
}

/// A job with something wrong, most often.
pub fn damaged(random: &mut Random, pairs: Pairs) -> Vec<u8> {
    let mut job = accepted(random, pairs);
    for _ in 0..1 + random.below(3) {
        let at = random.below(job.len());
        match random.below(6) {
            0 => job[at] = random.next() as u8,
            1 => job.truncate(at),
            2 => {
                let record: Vec<u8> = job[at / 4 * 4..].iter().take(4).copied().collect();
                job.extend(record);
            }
            3 => job.extend([*random.pick(b"SIFTEUPX"), random.byte_below(70), random.byte_below(70), 0]),
            4 => job.extend([b'S', random.byte_below(32), 0, 0]),
            _ => job.extend([b'I', random.byte_below(32), 0, 0]),
        }
        if job.is_empty() {
            break;
        }
        job.truncate(job.len() / 4 * 4 + if random.one_in(8) { job.len() % 4 } else { 0 });
        if job.is_empty() {
            break;
        }
    }
    if random.one_in(40) {
        while job.len() <= 16_384 {
            job.extend([b'T', random.byte_below(32), random.byte_below(64), random.byte_below(32)]);
        }
    }
    job
}

/// The same records in another order.
pub fn shuffled(random: &mut Random, job: &[u8]) -> Vec<u8> {
    let mut records: Vec<&[u8]> = job.chunks(4).collect();
    random.shuffle(&mut records);
    records.concat()
}

/// An accepted job under other numbers: its variables and its terminals are permuted, so that there are gaps between those that it names.
pub fn renumbered(random: &mut Random, job: &[u8]) -> Vec<u8> {
    let (mut variables, mut terminals): (Vec<u8>, Vec<u8>) = ((0..32).collect(), (32..64).collect());
    random.shuffle(&mut variables);
    random.shuffle(&mut terminals);
    let numbers = [variables, terminals].concat();
    job.chunks(4).flat_map(|record| machine::with_symbols(record, |symbol| numbers[usize::from(symbol)])).collect()
}

/// The rules and the start symbol of one job with the T, I and F records of another, in random order.
pub fn with_automaton(random: &mut Random, job: &[u8], other: &[u8]) -> Vec<u8> {
    let of_automaton = |record: &&[u8]| b"TIF".contains(&record[0]);
    let rules = job.chunks(4).filter(|record| !of_automaton(record));
    let mut records: Vec<&[u8]> = rules.chain(other.chunks(4).filter(of_automaton)).collect();
    random.shuffle(&mut records);
    records.concat()
}

/// A form, now and then one that is refused.
fn form(random: &mut Random) -> Vec<u8> {
    let length = match random.below(12) {
        0 => 64,
        1 => 65,
        2 => random.below(80),
        _ => random.below(6),
    };
    let over = if random.one_in(10) { 68 } else { 64 };
    (0..length).map(|_| if random.one_in(2) { random.byte_below(8) } else { random.byte_below(over) }).collect()
}

/// A chain of reasons over 20,000 long. Variable k < 27 walks along the states r of (q, k, r) by k → k 29, and at state 31 goes on to variable
/// k + 1 at state 0; from variable 26 the walk goes on at q + 1, by 27 → 28 26 and 0 → 27. So each transition rests on the one before, from
/// (0, 0, 0), which is given, to (31, 26, 31).
pub fn chain_of_reasons() -> Vec<u8> {
    let mut job: Vec<u8> = vec![b'S', 26, 0, 0, b'I', 31, 0, 0, b'F', 31, 0, 0, b'T', 0, 0, 0, b'T', 31, 30, 0];
    for k in 0..27 {
        job.extend([b'P', k, k, 29]);
    }
    for k in 0..26 {
        job.extend([b'P', k + 1, k, 30]);
    }
    job.extend([b'P', 27, 28, 26, b'U', 0, 27, 0]);
    for q in 0..31 {
        job.extend([b'T', q, 29, q + 1, b'T', q + 1, 28, q]);
    }
    job
}

/// S, I and as many transitions as a job has room for.
pub fn most_records() -> Vec<u8> {
    let given = (0..4_094u16).flat_map(|k| [b'T', (k / 1_024) as u8, 32 + (k / 32 % 32) as u8, (k % 32) as u8]);
    [b'S', 0, 0, 0, b'I', 0, 0, 0].into_iter().chain(given).collect()
}
