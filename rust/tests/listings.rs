//! Listings replayed: each record's rule is a rule of the job, its premises stand before it, and the given transitions that it rests on spell a
//! string of the automaton that the form derives.
mod support;

use ropeclover::listing::{Reason, Record, Transition};
use ropeclover::{explain, Explanation, Refusal, Workspace, REASONS, TABLE_BYTES};
use std::collections::HashMap;
use support::jobs::{self, chain_of_reasons, Pairs};
use support::seed;

/// The given symbols that a transition derives, by the records before it; long ones are cut off.
fn replay(job: &[u8], records: &[Record]) -> HashMap<Transition, Vec<u8>> {
    let has = |record: [u8; 4]| job.chunks(4).any(|r| r == record);
    let mut derived: HashMap<Transition, Vec<u8>> = HashMap::new();
    for record in records {
        let (from, symbol, to) = record.transition;
        assert!(!derived.contains_key(&record.transition), "listed twice");
        let mut string = vec![];
        match record.reason {
            Reason::Given => assert!(has([b'T', from, symbol, to])),
            Reason::Empty => assert!(has([b'E', symbol, 0, 0]) && from == to),
            Reason::Unit(x) => assert!(has([b'U', symbol, x, 0])),
            Reason::Pair(b, c, _) => assert!(has([b'P', symbol, b, c])),
        }
        if record.reason == Reason::Given {
            string.push(symbol);
        }
        for premise in record.premises() {
            string.extend(derived.get(&premise).expect("a premise stands after what it explains"));
        }
        string.truncate(2_000);
        derived.insert(record.transition, string);
    }
    derived
}

/// Whether the given automaton reads a string from a state to another.
fn reads(job: &[u8], from: u8, string: &[u8], to: u8) -> bool {
    let mut states = vec![from];
    for x in string {
        states = job.chunks(4).filter(|r| r[0] == b'T' && r[2] == *x && states.contains(&r[1])).map(|r| r[3]).collect();
        states.sort();
        states.dedup();
    }
    states.contains(&to)
}

/// The sequence goes from the initial state to a final one, by transitions that are listed.
fn sequence_is_listed(job: &[u8], explanation: &Explanation) {
    let is = |kind: u8, state: &u8| job.chunks(4).any(|r| r[0] == kind && r[1] == *state);
    assert_eq!(explanation.sequence.len(), if explanation.accepted { explanation.form.len() + 1 } else { 0 });
    assert!(explanation.sequence.first().map_or(true, |state| is(b'I', state)));
    assert!(explanation.sequence.last().map_or(true, |state| is(b'F', state)));
    let listed: Vec<Transition> = explanation.records.iter().map(|record| record.transition).collect();
    assert!(explanation.steps().iter().all(|step| listed.contains(step)));
}

/// Replays the listings of random forms on random jobs, and gives the records of all of them.
fn listed(test: &str, pairs: Pairs) -> Vec<Record> {
    let mut random = seed(test);
    let mut workspace = Workspace::new();
    let (mut accepted, mut records) = (0, Vec::new());
    for _ in 0..1_500 {
        let job = jobs::accepted(&mut random, pairs);
        let form = pairs.form(&mut random, &job);
        let Ok(explanation) = workspace.explain(&job, &form) else { continue };
        let derived = replay(&job, &explanation.records);
        for ((from, _, to), string) in &derived {
            if string.len() < 2_000 {
                assert!(reads(&job, *from, string, *to));
            }
        }
        accepted += explanation.accepted as usize;
        sequence_is_listed(&job, &explanation);
        let listed = workspace.table().iter().filter(|byte| **byte == 3).count();
        assert_eq!(listed, explanation.records.len());
        records.extend(explanation.records);
    }
    assert!(accepted > 50, "too few accepted forms to mean anything");
    records
}

#[test]
fn listings_replay_into_derivations() {
    listed("listings_replay_into_derivations", Pairs::Variables);
}

#[test]
fn listings_by_terminals_in_pairs_replay_into_derivations() {
    let records = listed("listings_by_terminals_in_pairs_replay_into_derivations", Pairs::Symbols);
    for places in [(false, true), (true, false), (true, true)] {
        let by_such = |record: &&Record| matches!(record.reason, Reason::Pair(x, y, _) if (x > 31, y > 31) == places);
        assert!(records.iter().filter(by_such).count() > 10, "too few pairs with terminals in {places:?}");
    }
}

/// The listing of a long chain of reasons replays whole; rust/tests/stack.rs makes it on a small stack.
#[test]
fn a_long_chain_of_reasons() {
    let job = chain_of_reasons();
    let explanation = Workspace::new().explain(&job, &[26]).unwrap();
    assert!(explanation.records.len() > 20_000);
    replay(&job, &explanation.records);
}

/// What an explanation answers and leaves: whether the form is accepted, the records, the table and the reasons.
type Left = (bool, Vec<Record>, Vec<u8>, Vec<u32>);

/// A form explained on memory of its own, with a listing of exactly the length that a first call asks for.
fn explained_apart(job: &[u8], form: &[u8]) -> Result<Left, Refusal> {
    let (mut table, mut reasons) = (vec![0; TABLE_BYTES], vec![0; REASONS]);
    let mut listing = match explain(job, &mut table, &mut reasons, form, &mut []) {
        Err(Refusal::ListingTooShort { records }) => vec![0; 8 * records as usize],
        _ => vec![],
    };
    let explained = explain(job, &mut table, &mut reasons, form, &mut listing)?;
    assert_eq!(listing.len(), 8 * explained.records);
    let records = listing.chunks(8).map(|bytes| Record::from_bytes(bytes).unwrap()).collect();
    Ok((explained.accepted, records, table, reasons))
}

/// One workspace over many jobs and forms, whose listings are now longer and now shorter, answers and leaves what memory of a form's own does; of an
/// earlier listing nothing is seen.
#[test]
fn a_workspace_that_is_kept() {
    let mut random = seed("a workspace that is kept");
    let mut workspace = Workspace::new();
    let chain = chain_of_reasons();
    let mut lengths = Vec::new();
    for round in 0..300 {
        let (job, form) = match round % 60 {
            0 => (chain.clone(), vec![26]),
            _ => {
                let job = jobs::started(&mut random, Pairs::Symbols);
                let form = Pairs::Symbols.form(&mut random, &job);
                (job, form)
            }
        };
        let by_workspace = workspace.explain(&job, &form);
        let found = by_workspace.map(|explanation| {
            (explanation.accepted, explanation.records, workspace.table().to_vec(), workspace.reasons().to_vec())
        });
        assert!(found == explained_apart(&job, &form), "round {round}");
        lengths.extend(found.map(|(_, records, _, _)| records.len()));
    }
    let grow = lengths.windows(2).filter(|pair| pair[0] < pair[1]).count();
    let shrink = lengths.windows(2).filter(|pair| pair[0] > pair[1]).count();
    assert!(grow > 20 && shrink > 20 && lengths[0] > 20_000, "{lengths:?}");
}

/// What a workspace compares is its table and reasons: whether a form was explained before is nothing that can be asked.
#[test]
fn equal_workspaces() {
    let job = b"S\0\0\0I\0\0\0F\0\0\0";
    let (mut one, mut other) = (Workspace::new(), Workspace::new());
    one.explain(job, &[]).unwrap();
    other.start(job).unwrap().finish();
    assert_eq!(one, other);
    one.start(b"S\0\0\0I\0\0\0T\0\x20\x01").unwrap();
    assert_ne!(one, other);
}
