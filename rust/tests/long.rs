//! The conversion of long bodies against one written apart: random and damaged long jobs, buffers of every length around what is needed, all between
//! guards.
mod support;

use std::collections::BTreeMap;
use support::jobs::Pairs;
use support::{long, long_jobs, machine, seed, written, ToldOnFailure};

/// Compares a call on a buffer of a length; the number of the refusal, 0 for none.
fn compare(text: &[u8], length: usize) -> u64 {
    written::compare(ropeclover::binarize, text, length, long::binarize(text, length))
}

/// The bytes that a long job needs, some number where it is refused.
fn needed(text: &[u8]) -> usize {
    long::binarize(text, usize::MAX).map_or(20, |records| 4 * records.len())
}

/// Compares random long jobs, among which these refusals are met often.
fn compare_random(test: &str, pairs: Pairs, refusals: &[u64]) {
    let mut random = seed(test);
    let mut met: BTreeMap<u64, usize> = BTreeMap::new();
    for _ in 0..20_000 {
        let _told = ToldOnFailure(format!("long job from seed {}", random.seed()));
        let text = match random.below(3) {
            0 => long_jobs::damaged(&mut random, pairs),
            _ => long_jobs::long_job(&mut random, pairs).concat(),
        };
        let needed = needed(&text);
        for length in [0, needed - needed.min(1), needed, needed + 1, 16_384] {
            *met.entry(compare(&text, length)).or_default() += 1;
        }
    }
    for number in refusals {
        assert!(met.get(number).is_some_and(|count| *count >= 100), "{number} is met too seldom: {met:?}");
    }
}

#[test]
fn random_long_jobs() {
    compare_random("random_long_jobs", Pairs::Variables, &[0, 1, 3, 4, 5, 6, 8, 9, 13, 15]);
}

#[test]
fn random_long_jobs_with_terminals_in_pairs() {
    let refusals = [0, 1, 3, 4, 5, 6, 8, 9, 13, 14, 15];
    compare_random("random_long_jobs_with_terminals_in_pairs", Pairs::Symbols, &refusals);
}

#[test]
fn every_length_around_the_need() {
    let mut random = seed("every_length_around_the_need");
    for _ in 0..100 {
        let text = long_jobs::long_job(&mut random, Pairs::Variables).concat();
        for length in 0..needed(&text) + 6 {
            compare(&text, length);
        }
    }
}

/// Every value of each byte of two records, one with a body and one without.
#[test]
fn every_byte_of_a_record() {
    let records = [
        long_jobs::rule(0, &[1, 40, 2, 41]),
        long_jobs::padded(b"P\x05\x01\x02"),
        long_jobs::padded(b"S\0"),
        long_jobs::padded(b"I\x03"),
    ];
    for at in 0..48 {
        for byte in 0..=255 {
            let mut text = records.concat();
            text[at] = byte;
            compare(&text, 64);
        }
    }
}

#[test]
fn every_length_of_a_text() {
    let mut random = seed("every_length_of_a_text");
    let texts = (0..8).flat_map(|_| long_jobs::long_job(&mut random, Pairs::Variables).concat());
    let text: Vec<u8> = texts.take(240).collect();
    for length in 0..=text.len() {
        compare(&text[..length], 16_384);
    }
    for length in 49_140..=49_180 {
        compare(&vec![b'S'; length], 16_384);
    }
}

/// What is written passes every check of a job, by the machine written apart.
#[test]
fn what_is_written_is_accepted() {
    for pairs in [Pairs::Variables, Pairs::Symbols] {
        let mut random = seed("what_is_written_is_accepted");
        let mut accepted = 0;
        for _ in 0..5_000 {
            let text = long_jobs::long_job(&mut random, pairs).concat();
            if let Ok(job) = ropeclover::long::binarized(&text) {
                assert!(machine::check(&job, true).is_ok());
                accepted += 1;
            }
        }
        assert!(accepted > 1_000, "too few accepted long jobs to mean anything");
    }
}
