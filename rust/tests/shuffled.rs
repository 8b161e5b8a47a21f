//! The same list of calls on a job and on its records in another order, refused calls included.
mod support;

use ropeclover::{advance, ask, bits, explain, start, verdicts, BIT_TABLE_BYTES};
use support::jobs::{self, Pairs};
use support::{seed, Random};

#[derive(Debug, PartialEq)]
struct Answers(Vec<String>);

fn run(job: &[u8], pairs: Pairs, mut random: Random, lengths: (usize, usize)) -> (Answers, Vec<u8>, Vec<u32>) {
    let mut table = vec![1; lengths.0];
    let mut reason = vec![77; lengths.1];
    let mut answers = vec![];
    for _ in 0..8 {
        let answer = match random.below(6) {
            0 => format!("{:?}", start(job, &mut table, &mut reason)),
            1 | 2 => format!("{:?}", advance(job, &mut table, &mut reason, random.below(60) as u64)),
            3 => format!("{:?}", ask(job, &table, &pairs.form(&mut random, job))),
            4 => {
                let mut listing = vec![3; random.below(400)];
                let explained = explain(job, &mut table, &mut reason, &pairs.form(&mut random, job), &mut listing);
                format!("{explained:?} {listing:?}")
            }
            _ => {
                let mut codes = vec![5; 60 + random.below(8)];
                format!("{:?} {codes:?}", verdicts(job, &mut table, &mut codes)) + &format!("{codes:?}")
            }
        };
        answers.push(answer);
    }
    (Answers(answers), table, reason)
}

/// The same for the calls on a bit table.
fn run_on_bits(job: &[u8], pairs: Pairs, mut random: Random, lengths: (usize, usize)) -> (Answers, Vec<u8>, Vec<u32>) {
    // Some places pending, some done and some with both bits.
    let mut bits: Vec<u8> = (0..lengths.0).map(|_| random.byte_below(256) & random.byte_below(256)).collect();
    let mut reason = vec![77; lengths.1];
    let mut answers = vec![];
    for _ in 0..8 {
        answers.push(match random.below(6) {
            0 => format!("{:?}", bits::start(job, &mut bits, &mut reason)),
            1..=3 => format!("{:?}", bits::advance(job, &mut bits, &mut reason, random.below(60) as u64)),
            4 => format!("{:?}", bits::ask(job, &bits, &pairs.form(&mut random, job))),
            _ => format!("{:?}", bits::done_count(&bits)),
        });
    }
    (Answers(answers), bits, reason)
}

fn runs_on_bits_are_alike(test: &str, pairs: Pairs) {
    let mut random = seed(test);
    for _ in 0..300 {
        let job = jobs::accepted(&mut random, pairs);
        let other = jobs::shuffled(&mut random, &job);
        let tables = BIT_TABLE_BYTES - usize::from(random.one_in(12)) + random.below(3);
        let reasons = 32_768 - usize::from(random.one_in(12));
        let calls = random.next();
        let run = |job| run_on_bits(job, pairs, Random::new(calls), (tables, reasons));
        assert_eq!(run(&job), run(&other));
    }
}

fn runs_are_alike(test: &str, pairs: Pairs) {
    let mut random = seed(test);
    for _ in 0..300 {
        let job = jobs::accepted(&mut random, pairs);
        let other = jobs::shuffled(&mut random, &job);
        let tables = if random.one_in(12) { 65_535 } else { 65_536 };
        let reasons = if random.one_in(12) { 32_767 } else { 32_768 };
        let calls = random.next();
        let run = |job| run(job, pairs, Random::new(calls), (tables, reasons));
        assert_eq!(run(&job), run(&other));
    }
}

#[test]
fn plain_and_shuffled_runs_are_alike() {
    runs_are_alike("plain_and_shuffled_runs_are_alike", Pairs::Variables);
}

#[test]
fn plain_and_shuffled_runs_on_terminals_in_pairs_are_alike() {
    runs_are_alike("plain_and_shuffled_runs_on_terminals_in_pairs_are_alike", Pairs::Symbols);
}

#[test]
fn plain_and_shuffled_runs_on_bits_are_alike() {
    runs_on_bits_are_alike("plain_and_shuffled_runs_on_bits_are_alike", Pairs::Variables);
}

#[test]
fn plain_and_shuffled_runs_on_bits_and_terminals_in_pairs_are_alike() {
    runs_on_bits_are_alike("plain_and_shuffled_runs_on_bits_and_terminals_in_pairs_are_alike", Pairs::Symbols);
}
