//! Turns on random jobs and memory: against the machines written apart and step by step, premises before what they explain, and listings.
mod support;

use ropeclover::{advance, explain, start, turn_of};
use support::bits::{self, says, Says};
use support::both::Both;
use support::jobs::Pairs;
use support::machine::{self, done_places, place, premises, reason_place, triple};
use support::run::{refusal, steps};
use support::{seed, Random, ToldOnFailure};

/// What a turn counts for in an entry.
const TURN: u32 = 65_536;

const PAIRS: [Pairs; 2] = [Pairs::Variables, Pairs::Symbols];

/// Makes advances of random sizes on both tables; the steps of all of them.
fn random_advances(random: &mut Random, both: &mut Both) -> u64 {
    let sizes: Vec<usize> = (0..random.below(8)).map(|_| *random.pick(&[1, 2, 5, 40])).collect();
    sizes.into_iter().map(|size| both.advance(random.below(size + 1) as u64).steps).sum()
}

/// The library's steps, split over some advances, against as many steps of the machines written apart, in one go. Gives the largest turn met.
fn split_steps(random: &mut Random, both: &mut Both, to_the_end: bool) -> u16 {
    let (mut table, mut entries) = (both.table.clone(), both.table_reasons.clone());
    let (mut bits, mut bits_entries) = (both.bits.clone(), both.bits_reasons.clone());
    let mut made = random_advances(random, both);
    if to_the_end {
        made += both.advance(u64::MAX).steps;
    }
    assert_eq!(machine::advance(&both.job, &mut table, &mut entries, made).map(|found| found.1), Ok(made));
    assert_eq!(bits::advance(&both.job, &mut bits, &mut bits_entries, made).map(|found| found.1), Ok(made));
    assert!(both.bits == bits && both.bits_reasons == bits_entries, "bits or their reasons differ");
    both.holds(&table, &entries);
    let learned = (0..65_536).filter(|place| triple(*place).1 < 32 && table[*place] == 2);
    learned.map(|place| turn_of(entries[reason_place(triple(place))])).max().unwrap_or(0)
}

#[test]
fn turns_from_a_start() {
    let mut random = seed("turns_from_a_start");
    for pairs in PAIRS {
        let mut largest = vec![];
        for _ in 0..800 {
            let _told = ToldOnFailure(format!("job from seed {}", random.seed()));
            let mut both = Both::random(&mut random, pairs);
            both.start();
            largest.push(split_steps(&mut random, &mut both, true));
        }
        let met = |turn| largest.iter().filter(|largest| **largest >= turn).count();
        assert!(met(20) > 100 && met(200) > 10, "too few turns to mean anything: {} and {}", met(20), met(200));
    }
}

#[test]
fn turns_on_any_table() {
    let mut random = seed("turns_on_any_table");
    for pairs in PAIRS {
        for _ in 0..600 {
            let _told = ToldOnFailure(format!("table from seed {}", random.seed()));
            let mut both = Both::random(&mut random, pairs);
            split_steps(&mut random, &mut both, false);
        }
    }
}

/// By the definition alone, step by step: what was absent and is pending has as its turn the number of done places, and every other entry is as it was.
/// Gives the entries that were written.
fn learned_in_a_step(both: &mut Both) -> usize {
    let (before, entries) = (both.table.clone(), both.table_reasons.clone());
    both.advance(1);
    let done = done_places(&both.table);
    let mut learned = 0;
    for t in (0..65_536).map(triple).filter(|t| t.1 < 32) {
        let added = !matches!(before[place(t)], 1..=3) && both.table[place(t)] == 1;
        let at = reason_place(t);
        if added {
            assert_eq!(usize::from(turn_of(both.table_reasons[at])), done, "the turn of {t:?}");
        } else {
            assert_eq!(both.table_reasons[at], entries[at], "the entry of {t:?}, which is not added");
        }
        learned += usize::from(added);
    }
    assert!(both.bits_reasons == both.table_reasons);
    learned
}

#[test]
fn the_done_places_after_each_step() {
    let mut random = seed("the_done_places_after_each_step");
    let mut learned = [0, 0];
    for _ in 0..400 {
        let _told = ToldOnFailure(format!("table from seed {}", random.seed()));
        let pairs = *random.pick(&PAIRS);
        let mut both = Both::random(&mut random, pairs);
        let started = random.one_in(2);
        if started {
            both.start();
        }
        learned[usize::from(started)] += (0..30).map(|_| learned_in_a_step(&mut both)).sum::<usize>();
    }
    assert!(learned.iter().all(|learned| *learned > 1_000), "too few entries to mean anything: {learned:?}");
}

/// Checks that from a start each transition that is there has a reason, and a larger turn than its premises; gives the premises checked.
fn premises_come_before(job: &[u8], there: impl Fn(usize) -> bool, entries: &[u32]) -> usize {
    let job = machine::check(job, true).unwrap();
    let turn = |t| entries[reason_place(t)] / TURN;
    let mut checked = 0;
    for t in (0..65_536).filter(|place| there(*place)).map(triple).filter(|t| t.1 < 32) {
        let reason = (entries[reason_place(t)] % TURN) as u16;
        assert_ne!(reason, 0, "{t:?} is there without a reason");
        let from = premises(&job, t, reason);
        // At the start there are the given ones and those by ε, which have no premises.
        assert_eq!(turn(t) == 0, from.is_empty(), "{t:?} has turn {}", turn(t));
        for premise in from.into_iter().filter(|premise| premise.1 < 32) {
            assert!(there(place(premise)) && turn(premise) < turn(t), "{t:?} at {} by {premise:?}", turn(t));
            checked += 1;
        }
    }
    checked
}

/// Makes a call that writes a table of bytes: most often an advance.
fn random_call(random: &mut Random, pairs: Pairs, job: &[u8], table: &mut [u8], entries: &mut [u32]) {
    match random.below(8) {
        0 => assert!(start(job, table, entries).is_ok()),
        // It may be refused, for its form or its listing.
        1 => drop(explain(job, table, entries, &pairs.form(random, job), &mut vec![0; *random.pick(&[0, 16, 5_000])])),
        _ => drop(advance(job, table, entries, steps(random)).unwrap()),
    }
}

#[test]
fn premises_have_smaller_turns() {
    let mut random = seed("premises_have_smaller_turns");
    for pairs in PAIRS {
        let mut checked = 0;
        for _ in 0..1_200 {
            let _told = ToldOnFailure(format!("job from seed {}", random.seed()));
            let Both { job, mut table, table_reasons: mut entries, .. } = Both::random(&mut random, pairs);
            assert!(start(&job, &mut table, &mut entries).is_ok());
            for _ in 0..1 + random.below(6) {
                random_call(&mut random, pairs, &job, &mut table, &mut entries);
                checked += premises_come_before(&job, |place| matches!(table[place], 1..=3), &entries);
            }
        }
        assert!(checked > 50_000, "{checked} premises are too few to mean anything");
    }
}

#[test]
fn premises_on_bits_have_smaller_turns() {
    let mut random = seed("premises_on_bits_have_smaller_turns");
    for pairs in PAIRS {
        let mut checked = 0;
        for _ in 0..1_000 {
            let _told = ToldOnFailure(format!("job from seed {}", random.seed()));
            let mut both = Both::random(&mut random, pairs);
            both.start();
            for _ in 0..1 + random.below(4) {
                both.advance(steps(&mut random));
                let there = |place| says(&both.bits, place) != Says::Absent;
                checked += premises_come_before(&both.job, there, &both.bits_reasons);
            }
        }
        assert!(checked > 20_000, "{checked} premises are too few to mean anything");
    }
}

/// Explain starts anew: whatever turns stood there, the listing is the one of the machine written apart, and so are table and reasons.
#[test]
fn listings_over_any_entries() {
    let mut random = seed("listings_over_any_entries");
    for pairs in PAIRS {
        let mut listed = 0;
        for _ in 0..1_000 {
            let _told = ToldOnFailure(format!("job from seed {}", random.seed()));
            let Both { job, mut table, table_reasons: mut entries, .. } = Both::random(&mut random, pairs);
            let (mut expected_table, mut expected_entries) = (table.clone(), entries.clone());
            // The head or the body of a pair rule, most often.
            let form = Pairs::Symbols.form(&mut random, &job);
            let (mut listing, mut expected) = (vec![7; 20_000], vec![7; 20_000]);
            let found = refusal(explain(&job, &mut table, &mut entries, &form, &mut listing));
            let found = found.map(|found| (found.accepted, found.records as u64));
            let (t, e) = (&mut expected_table, &mut expected_entries);
            assert_eq!(found, machine::explain(&job, t, e, &form, &mut expected));
            assert!(listing == expected && table == expected_table && entries == expected_entries);
            listed += found.map_or(0, |(_, records)| records);
        }
        assert!(listed > 400, "{listed} records are too few to mean anything");
    }
}
