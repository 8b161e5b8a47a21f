//! Clean copies once more, from the papers: the rules that stand in some derivation of a string of the language. Nothing here knows of codes or ranks.
use super::infinite::{of_use, productions};
use super::jobs::Record;
use super::machine::{check, with_symbols, Refused};
use std::collections::{BTreeMap, BTreeSet};

/// The rules of a job that are of use, as their records.
fn useful_rules(job: &[u8], start: u8) -> Vec<Record> {
    let used: BTreeSet<_> = of_use(&productions(job), start).into_iter().collect();
    let records = job.chunks(4).map(|record| <Record>::try_from(record).unwrap());
    records.filter(|record| productions(record).iter().any(|rule| used.contains(rule))).collect()
}

/// The new number of each symbol that stands in a rule of use. Each such variable is the head of one.
pub fn numbers(job: &[u8]) -> BTreeMap<u8, u8> {
    let start = check(job, false).unwrap().start as u8;
    let rules = useful_rules(job, start);
    let heads: BTreeSet<u8> = rules.iter().map(|rule| rule[1]).collect();
    let bodies = rules.iter().flat_map(|rule| productions(rule)).flat_map(|(_, body)| body);
    let terminals = bodies.filter(|symbol| *symbol > 31).map(|terminal| (terminal, terminal));
    heads.into_iter().zip(0..).chain(terminals).collect()
}

/// The records that are written into a buffer of this length.
pub fn clean(job: &[u8], room: usize) -> Result<Vec<Record>, Refused> {
    let start = check(job, false)?.start as u8;
    let numbers = numbers(job);
    let rules = useful_rules(job, start);
    let mut written: Vec<Record> = rules.iter().map(|rule| with_symbols(rule, |symbol| numbers[&symbol])).collect();
    // Variables keep their order, so that the copy's own ranks are those of the job.
    written.sort_by_key(|[kind, head, rest @ ..]| (*head, *kind, *rest));
    written.insert(0, [b'S', numbers.get(&start).copied().unwrap_or(0), 0, 0]);
    match 4 * written.len() > room {
        true => Err((13, written.len() as u64)),
        false => Ok(written),
    }
}
