//! The library against a machine written apart from it: random lists of calls on garbage tables, with short and long buffers, accepted and
//! damaged jobs.
mod support;

use support::jobs::{self, Pairs};
use support::run::{refusal, Run};
use support::{machine, seed, ToldOnFailure};

fn lists_of_calls(test: &str, pairs: Pairs) {
    let mut random = seed(test);
    for _ in 0..400 {
        let _told = ToldOnFailure(format!("list of calls from seed {}", random.seed()));
        let damaged = random.one_in(3);
        let job = if damaged { jobs::damaged(&mut random, pairs) } else { jobs::accepted(&mut random, pairs) };
        let mut run = Run::new(&mut random, job, pairs);
        for _ in 0..1 + random.below(7) {
            run.call(&mut random);
        }
    }
}

#[test]
fn random_lists_of_calls() {
    lists_of_calls("random_lists_of_calls", Pairs::Variables);
}

#[test]
fn random_lists_of_calls_on_terminals_in_pairs() {
    lists_of_calls("random_lists_of_calls_on_terminals_in_pairs", Pairs::Symbols);
}

fn damaged_jobs(test: &str, pairs: Pairs) {
    let mut random = seed(test);
    let mut workspace = ropeclover::Workspace::new();
    for _ in 0..5_000 {
        let job = jobs::damaged(&mut random, pairs);
        let found = refusal(workspace.verdicts(&job).map(|_| ()));
        assert_eq!(found, machine::check(&job, false).map(|_| ()), "{job:?}");
        let part = ropeclover::show_refused(&job);
        assert_eq!(part, &machine::show(&job)[..]);
    }
}

#[test]
fn damaged_jobs_are_refused_and_shown_alike() {
    damaged_jobs("damaged_jobs_are_refused_and_shown_alike", Pairs::Variables);
}

#[test]
fn damaged_jobs_with_terminals_in_pairs_are_refused_and_shown_alike() {
    damaged_jobs("damaged_jobs_with_terminals_in_pairs_are_refused_and_shown_alike", Pairs::Symbols);
}
