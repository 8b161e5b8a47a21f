//! Clean copies against ones written apart: random and damaged jobs, buffers of every length around what is needed, all between guards. And what the
//! library promises of them: the same strings, a copy of a copy, jobs that say the same.
mod support;

use ropeclover::{cleaned, verdicts, Workspace, CODES, COPY_BYTES, TABLE_BYTES};
use std::collections::{BTreeMap, BTreeSet};
use support::infinite::productions;
use support::jobs::{self, Pairs, Record};
use support::strings::{derived, Strings};
use support::{clean, machine, seed, written, Random, ToldOnFailure};

/// Compares a call on a buffer of a length; the number of the refusal, 0 for none.
fn compare(job: &[u8], length: usize) -> u64 {
    written::compare(ropeclover::clean, job, length, clean::clean(job, length))
}

/// The bytes that a copy needs, some number where the job is refused.
fn needed(job: &[u8]) -> usize {
    clean::clean(job, usize::MAX).map_or(20, |records| 4 * records.len())
}

/// An accepted job, half the time with gaps between its symbols.
fn accepted(random: &mut Random) -> Vec<u8> {
    let job = match random.below(4) {
        0 => jobs::accepted(random, Pairs::Variables),
        1 => jobs::accepted(random, Pairs::Symbols),
        _ => jobs::sparse(random),
    };
    match random.one_in(2) {
        true => jobs::renumbered(random, &job),
        false => job,
    }
}

/// What copies are like, to see that they mean something.
#[derive(Debug, Default)]
struct Met {
    empty: usize,
    whole: usize,
    /// Some rules stay, some are left out.
    part: usize,
    /// A variable has another number.
    moved: usize,
}

impl Met {
    fn count(&mut self, job: &[u8], copy: &[u8]) {
        let rules = |job: &[u8]| job.chunks(4).filter(|record| b"EUP".contains(&record[0])).count();
        match rules(copy) {
            0 => self.empty += 1,
            kept if kept == rules(job) => self.whole += 1,
            _ => self.part += 1,
        }
        self.moved += usize::from(clean::numbers(job).iter().any(|(old, new)| old != new));
    }

    /// Each is met this often at least.
    fn often(&self, least: usize) {
        let counts = [self.empty, self.whole, self.part, self.moved];
        assert!(counts.iter().all(|count| *count >= least), "too seldom: {self:?}");
    }
}

#[test]
fn random_jobs() {
    let mut random = seed("random_jobs");
    let (mut met, mut refusals) = (Met::default(), BTreeMap::new());
    for _ in 0..10_000 {
        let _told = ToldOnFailure(format!("job from seed {}", random.seed()));
        let job = accepted(&mut random);
        let needed = needed(&job);
        for length in [0, needed - 1, needed, needed + 1, COPY_BYTES] {
            *refusals.entry(compare(&job, length)).or_default() += 1;
        }
        met.count(&job, &cleaned(&job).unwrap());
    }
    met.often(2_000);
    assert_eq!(refusals, BTreeMap::from([(0, 30_000), (13, 20_000)]));
}

/// The refusals are those of the verdicts with buffers that are long enough, and come before 13.
#[test]
fn damaged_jobs() {
    let mut random = seed("damaged_jobs");
    let (mut table, mut codes) = (vec![0; TABLE_BYTES], [0; CODES]);
    let mut met: BTreeMap<u64, usize> = BTreeMap::new();
    for _ in 0..10_000 {
        let _told = ToldOnFailure(format!("job from seed {}", random.seed()));
        let job = jobs::damaged(&mut random, Pairs::Symbols);
        let refused = verdicts(&job, &mut table, &mut codes).err();
        assert_eq!(cleaned(&job).err(), refused);
        for length in [0, needed(&job) - 1, COPY_BYTES] {
            let number = compare(&job, length);
            assert_eq!(number == 0 || number == 13, refused.is_none());
            *met.entry(number).or_default() += 1;
        }
    }
    for number in [0, 1, 2, 3, 4, 5, 6, 8, 13] {
        assert!(met.get(&number).is_some_and(|count| *count >= 100), "{number} is met too seldom: {met:?}");
    }
    assert!(!met.contains_key(&9), "{met:?}");
}

#[test]
fn every_length_around_the_need() {
    let mut random = seed("every_length_around_the_need");
    for _ in 0..200 {
        let job = accepted(&mut random);
        for length in 0..needed(&job) + 6 {
            compare(&job, length);
        }
    }
}

/// As many rules as there may be: most often all are of use, and the copy is as long as it can be.
#[test]
fn the_most_rules() {
    let mut random = seed("the_most_rules");
    let mut longest = 0;
    for _ in 0..300 {
        let _told = ToldOnFailure(format!("job from seed {}", random.seed()));
        let (variables, terminals) = (*random.pick(&[8, 32]), *random.pick(&[8, 32]));
        let mut rules: BTreeSet<Record> = BTreeSet::new();
        while rules.len() < 256 {
            rules.insert(jobs::rule(&mut random, variables, terminals, Pairs::Symbols));
        }
        let job: Vec<u8> = rules.into_iter().chain([[b'S', 0, 0, 0]]).flatten().collect();
        let job = jobs::shuffled(&mut random, &job);
        let job = jobs::renumbered(&mut random, &job);
        let needed = needed(&job);
        for length in [needed - 1, needed, COPY_BYTES, COPY_BYTES + 1] {
            compare(&job, length);
        }
        longest += usize::from(needed == COPY_BYTES);
    }
    assert!((100..300).contains(&longest), "{longest} copies are as long as can be");
}

/// The strings up to some length that a job's start symbol derives.
fn strings(job: &[u8], longest: usize) -> Strings {
    let start = job.chunks(4).find(|record| record[0] == b'S').unwrap()[1];
    derived(&productions(job), start, longest)
}

/// A length up to which a grammar has not too many strings: the fewer, the more terminals it has.
fn longest(job: &[u8]) -> usize {
    let bodies = productions(job).into_iter().flat_map(|(_, body)| body);
    let terminals: BTreeSet<u8> = bodies.filter(|symbol| *symbol > 31).collect();
    match terminals.len() {
        0 | 1 => 9,
        2 => 6,
        3 => 4,
        4..=6 => 3,
        _ => 2,
    }
}

#[test]
fn the_same_strings() {
    let mut random = seed("the_same_strings");
    // Grammars with no such string, with some, with ten or more, and those of the last that have rules of no use.
    let [mut none, mut some, mut many, mut many_of_part] = [0; 4];
    for _ in 0..5_000 {
        let _told = ToldOnFailure(format!("job from seed {}", random.seed()));
        let job = accepted(&mut random);
        let (copy, longest) = (cleaned(&job).unwrap(), longest(&job));
        let before = strings(&job, longest);
        assert_eq!(strings(&copy, longest), before);
        let count = match before.len() {
            0 => &mut none,
            1..=9 => &mut some,
            _ => &mut many,
        };
        *count += 1;
        many_of_part += usize::from(before.len() > 9 && productions(&copy).len() < productions(&job).len());
    }
    let counts = [none, some, many, many_of_part];
    assert!(counts.iter().all(|count| *count >= 200), "too seldom: {counts:?}");
}

#[test]
fn a_copy_of_a_copy() {
    let mut random = seed("a_copy_of_a_copy");
    let mut met = Met::default();
    for _ in 0..10_000 {
        let _told = ToldOnFailure(format!("job from seed {}", random.seed()));
        let job = accepted(&mut random);
        let copy = cleaned(&job).unwrap();
        assert!(machine::check(&copy, false).is_ok(), "the copy is accepted");
        assert_eq!(cleaned(&copy).unwrap(), copy);
        met.count(&job, &copy);
    }
    met.often(2_000);
}

/// The same rules and start symbol in another order, with the same T, I and F records, without any, and with others.
#[test]
fn jobs_that_say_the_same() {
    let mut random = seed("jobs_that_say_the_same");
    let mut met = Met::default();
    for _ in 0..5_000 {
        let _told = ToldOnFailure(format!("job from seed {}", random.seed()));
        let (job, other) = (accepted(&mut random), accepted(&mut random));
        let copy = cleaned(&job).unwrap();
        for automaton in [&job[..], &[], &other] {
            assert_eq!(cleaned(&jobs::with_automaton(&mut random, &job, automaton)).as_ref(), Ok(&copy));
        }
        met.count(&job, &copy);
    }
    met.often(1_000);
}

/// What rules are sorted by.
fn rank_order(rule: &Record) -> [u8; 4] {
    [rule[1], rule[0], rule[2], rule[3]]
}

/// What a copy says of the job: the new number of each symbol, and by their ranks the rules that are left out, each for a useless symbol of its own.
#[test]
fn what_is_left_out() {
    let mut random = seed("what_is_left_out");
    let mut met: BTreeMap<u8, usize> = BTreeMap::new();
    for _ in 0..1_000 {
        let _told = ToldOnFailure(format!("job from seed {}", random.seed()));
        let job = accepted(&mut random);
        let checked = machine::check(&job, false).unwrap();
        let (copy, found) = (Workspace::new().clean(&job).unwrap(), support::verdicts::verdicts(&checked));
        assert_eq!((&copy.job, copy.empty), (&cleaned(&job).unwrap(), found.empty));
        let mut numbers = clean::numbers(&job);
        numbers.entry(checked.start as u8).or_insert(0);
        assert!((0..=255).all(|symbol| copy.number(symbol) == numbers.get(&symbol).copied()));
        for left in &copy.left_out {
            assert!(machine::names(&left.rule).contains(&left.symbol));
            assert_eq!(left.code, found.codes[usize::from(left.symbol)]);
            *met.entry(left.code).or_default() += 1;
        }
        let useless = |rule: &&[u8]| machine::names(rule).iter().any(|symbol| found.codes[usize::from(*symbol)] != 1);
        let rules = job.chunks(4).filter(|record| b"EUP".contains(&record[0]));
        let mut expected: Vec<Record> = rules.filter(useless).map(|rule| rule.try_into().unwrap()).collect();
        expected.sort_by_key(rank_order);
        assert_eq!(copy.left_out.iter().map(|left| left.rule).collect::<Vec<Record>>(), expected);
    }
    assert!(met.keys().eq(&[2, 3]) && met.values().all(|count| *count >= 500), "{met:?}");
}
