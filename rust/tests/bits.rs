//! Bit tables on random jobs and memory: the library against the machine written apart, and against its own table of bytes.
mod support;

use ropeclover::{ask, bits};
use support::bits::{byte_says, has_done_bit, has_pending_bit, says, Says};
use support::bits_run::{Met, Run};
use support::both::Both;
use support::jobs::{self, Pairs};
use support::run::steps;
use support::{seed, Random, ToldOnFailure};

fn lists_of_calls(test: &str, pairs: Pairs) {
    let mut random = seed(test);
    let mut met = Met::default();
    for _ in 0..300 {
        let _told = ToldOnFailure(format!("list of calls from seed {}", random.seed()));
        let damaged = random.one_in(8);
        let job = if damaged { jobs::damaged(&mut random, pairs) } else { jobs::accepted(&mut random, pairs) };
        let mut run = Run::new(&mut random, job, pairs);
        for _ in 0..1 + random.below(9) {
            run.call(&mut random, &mut met);
        }
    }
    let often = met.started >= 50 && met.refused >= 20 && met.finished >= 100 && met.accepted >= 20;
    assert!(often && met.steps >= 100_000 && met.meetings >= 100_000, "too little is met to mean anything: {met:?}");
}

#[test]
fn random_lists_of_calls() {
    lists_of_calls("random_lists_of_calls", Pairs::Variables);
}

#[test]
fn random_lists_of_calls_on_terminals_in_pairs() {
    lists_of_calls("random_lists_of_calls_on_terminals_in_pairs", Pairs::Symbols);
}

impl Both {
    /// Compares what the two say of each place, the reasons, the count and the answers to some forms.
    fn compare(&self, random: &mut Random) {
        for place in 0..65_536 {
            assert_eq!(says(&self.bits, place), byte_says(self.table[place]), "place {place}");
        }
        assert!(self.bits_reasons == self.table_reasons, "reasons differ");
        let done = self.table.iter().filter(|byte| byte_says(**byte) == Says::Done).count();
        assert_eq!(bits::done_count(&self.bits), Ok(done as u64));
        for _ in 0..4 {
            let form = self.pairs.form(random, &self.job);
            // A form is refused alike.
            assert_eq!(bits::ask(&self.job, &self.bits, &form), ask(&self.job, &self.table, &form), "form {form:?}");
        }
    }

    /// Advances by random counts, then to the end, and compares at each stage. Gives the steps made.
    fn advance_to_the_end(&mut self, random: &mut Random) -> u64 {
        let mut made = 0;
        for _ in 0..random.below(12) {
            made += self.advance(steps(random)).steps;
            self.compare(random);
        }
        let last = self.advance(u64::MAX);
        assert!(last.finished);
        self.compare(random);
        made + last.steps
    }
}

fn bits_and_bytes_from_start(test: &str, pairs: Pairs) {
    let mut random = seed(test);
    let mut made = 0;
    for _ in 0..300 {
        let _told = ToldOnFailure(format!("job from seed {}", random.seed()));
        let mut both = Both::random(&mut random, pairs);
        both.start();
        both.compare(&mut random);
        made += both.advance_to_the_end(&mut random);
        let twice = (0..65_536).find(|place| has_pending_bit(&both.bits, *place) && has_done_bit(&both.bits, *place));
        assert_eq!(twice, None, "from a start no place has both bits");
    }
    assert!(made > 5_000, "{made} steps are too few to mean anything");
}

#[test]
fn bits_and_bytes_agree_from_start() {
    bits_and_bytes_from_start("bits_and_bytes_agree_from_start", Pairs::Variables);
}

#[test]
fn bits_and_bytes_agree_from_start_on_terminals_in_pairs() {
    bits_and_bytes_from_start("bits_and_bytes_agree_from_start_on_terminals_in_pairs", Pairs::Symbols);
}

/// Whatever the tables hold, if they say the same.
#[test]
fn bits_and_bytes_agree_on_any_table() {
    let mut random = seed("bits_and_bytes_agree_on_any_table");
    for pairs in [Pairs::Variables, Pairs::Symbols] {
        for _ in 0..60 {
            let _told = ToldOnFailure(format!("table from seed {}", random.seed()));
            let mut both = Both::random(&mut random, pairs);
            both.compare(&mut random);
            both.advance_to_the_end(&mut random);
        }
    }
}
