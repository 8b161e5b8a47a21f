//! Pair rules with terminals in their bodies. By hand, worked out from docs/SPECIFICATION.md: tables, reasons, counts, listings and codes; then every
//! value of a body's bytes; and random grammars against the verdicts written apart, and against themselves with a variable for each terminal.
mod support;

use ropeclover::{advance, ask, explain, show_refused, start, text::assemble, verdicts, Operation, Refusal, Workspace};
use std::collections::{BTreeMap, BTreeSet};
use support::jobs::{self, Pairs, Record};
use support::machine::{self, names, place, Triple};
use support::{seed, ToldOnFailure};

/// A transition and its reason, 0 for a terminal's, which has none.
type Reasoned = (Triple, u16);

/// A job worked by hand, step by step: a step takes the pending transition (q, X, r) of lowest place q × 2048 + X × 32 + r, and a reason is 1 + 32 × the
/// rule's rank + the state at which the two meet.
struct Worked {
    text: &'static str,
    /// What is pending at the start.
    begun: &'static [Reasoned],
    /// The transition that each step takes, the rise in pair meetings, and what becomes pending.
    steps: &'static [(Triple, u64, &'static [Reasoned])],
    /// states, examined, joins; start, empty, growing
    report: ((usize, u64, u64), [bool; 3]),
}

/// S → a S | a b on the chain a a b. Ranks: 0 -> 32 0 is 0, 0 -> 32 33 is 1.
const CHAIN: Worked = Worked {
    text: "S 0\nP 0 32 0\nP 0 32 33\nI 0\nF 3\nT 0 32 1\nT 1 32 2\nT 2 33 3\n",
    begun: &[((0, 32, 1), 0), ((1, 32, 2), 0), ((2, 33, 3), 0)],
    steps: &[
        ((0, 32, 1), 0, &[]),                        // neither 0 nor 33 is done from 1
        ((1, 32, 2), 0, &[]),                        // (2, 33, 3) is pending still
        ((2, 33, 3), 1, &[((1, 0, 3), 1 + 32 + 2)]), // behind (1, 32, 2), for 0 -> 32 33
        ((1, 0, 3), 1, &[((0, 0, 3), 1 + 1)]),       // behind (0, 32, 1), for 0 -> 32 0
        ((0, 0, 3), 0, &[]),
    ],
    report: ((4, 5, 2), [true, false, true]),
};

/// S → a a on the chain a a a: a meets a at 1 and at 2.
const TWICE: Worked = Worked {
    text: "S 0\nP 0 32 32\nI 0\nF 2\nT 0 32 1\nT 1 32 2\nT 2 32 3\n",
    begun: &[((0, 32, 1), 0), ((1, 32, 2), 0), ((2, 32, 3), 0)],
    steps: &[
        ((0, 32, 1), 0, &[]),
        ((1, 32, 2), 1, &[((0, 0, 2), 1 + 1)]),
        ((0, 0, 2), 0, &[]), // its place is lower than that of (2, 32, 3)
        ((2, 32, 3), 1, &[((1, 0, 3), 1 + 2)]),
        ((1, 0, 3), 0, &[]),
    ],
    report: ((4, 5, 2), [true, false, false]),
};

/// S → a a | a on a loop: (0, 32, 0) is its own partner, which is one meeting. The pair rule has rank 0 and the unit rule rank 1, as P comes before U,
/// so of the reasons 1 and 33 that are offered 1 is kept.
const LOOP: Worked = Worked {
    text: "S 0\nP 0 32 32\nU 0 32\nI 0\nF 0\nT 0 32 0\n",
    begun: &[((0, 32, 0), 0)],
    steps: &[((0, 32, 0), 1, &[((0, 0, 0), 1)]), ((0, 0, 0), 0, &[])],
    report: ((1, 2, 1), [true, false, false]),
};

/// S → b a, where the step of a comes first: a waits for b, and they meet in the step of b.
const SECOND_FIRST: Worked = Worked {
    text: "S 0\nP 0 33 32\nI 1\nF 2\nT 0 32 2\nT 1 33 0\n",
    begun: &[((0, 32, 2), 0), ((1, 33, 0), 0)],
    steps: &[((0, 32, 2), 0, &[]), ((1, 33, 0), 1, &[((1, 0, 2), 1)]), ((1, 0, 2), 0, &[])],
    report: ((3, 3, 1), [true, false, false]),
};

/// S → a b | b a on two loops: in the step of b both rules meet a, the first of them with the smaller reason.
const BOTH_WAYS: Worked = Worked {
    text: "S 0\nP 0 33 32\nP 0 32 33\nI 0\nF 0\nT 0 33 0\nT 0 32 0\n",
    begun: &[((0, 32, 0), 0), ((0, 33, 0), 0)],
    steps: &[((0, 32, 0), 0, &[]), ((0, 33, 0), 2, &[((0, 0, 0), 1)]), ((0, 0, 0), 0, &[])],
    report: ((1, 3, 2), [true, false, false]),
};

/// S → A a | a A and A → ε on the chain a. Ranks: 0 -> 1 32 is 0, 0 -> 32 1 is 1, 1 -> ε is 2.
const EMPTY_BESIDE: Worked = Worked {
    text: "S 0\nE 1\nP 0 32 1\nP 0 1 32\nI 0\nF 1\nT 0 32 1\n",
    begun: &[((0, 1, 0), 1 + 64), ((1, 1, 1), 1 + 64), ((0, 32, 1), 0)],
    steps: &[
        ((0, 1, 0), 0, &[]),
        ((0, 32, 1), 1, &[((0, 0, 1), 1)]), // behind (0, 1, 0); (1, 1, 1) is pending still
        ((0, 0, 1), 0, &[]),
        ((1, 1, 1), 1, &[]), // behind (0, 32, 1): it leads to what is done already
    ],
    report: ((2, 4, 2), [true, false, false]),
};

const WORKED: [Worked; 6] = [CHAIN, TWICE, LOOP, SECOND_FIRST, BOTH_WAYS, EMPTY_BESIDE];

/// Table and reasons, written by hand.
struct Memory {
    table: Vec<u8>,
    reasons: Vec<u32>,
}

impl Memory {
    /// Adds what is pending at a turn. From a start that is the number of steps made, each of which makes one place done.
    fn add(&mut self, added: &[Reasoned], turn: usize) {
        for ((q, x, r), reason) in added {
            self.table[place((*q, *x, *r))] = 1;
            if *x < 32 {
                self.reasons[q * 1024 + x * 32 + r] = u32::from(*reason) + 65_536 * turn as u32;
            }
        }
    }
}

#[test]
fn step_by_step() {
    for worked in WORKED {
        let _told = ToldOnFailure(worked.text.into());
        let job = assemble(worked.text).unwrap();
        let mut workspace = Workspace::new();
        let mut started = workspace.start(&job).unwrap();
        let mut expected = Memory { table: vec![0; 65_536], reasons: vec![0; 32_768] };
        expected.add(worked.begun, 0);
        for (number, (taken, rise, added)) in worked.steps.iter().enumerate() {
            assert!(started.memory().table() == expected.table, "the table before step {number}");
            assert!(started.memory().reasons() == expected.reasons, "the reasons before step {number}");
            let advanced = started.advance(1);
            assert_eq!((advanced.steps, advanced.meetings), (1, *rise), "step {number}");
            assert_eq!(advanced.finished, number + 1 == worked.steps.len(), "step {number}");
            expected.table[place(*taken)] = 2;
            expected.add(added, number + 1);
        }
        assert!(workspace.table() == expected.table && workspace.reasons() == expected.reasons, "the end");
        let report = workspace.report(&job).unwrap();
        assert_eq!((report.states, report.examined, report.joins), worked.report.0);
        assert_eq!([report.start, report.empty, report.growing], worked.report.1);
    }
}

/// The listing of a form, none where it is not accepted.
fn listing(text: &str, form: &[u8]) -> Option<Vec<[u8; 8]>> {
    let (mut table, mut reasons, mut bytes) = (vec![0; 65_536], vec![0; 32_768], vec![7; 80]);
    let found = explain(&assemble(text).unwrap(), &mut table, &mut reasons, form, &mut bytes).unwrap();
    assert!(bytes[8 * found.records..].iter().all(|byte| *byte == 7));
    assert_eq!(table.iter().filter(|byte| **byte == 3).count(), found.records);
    let records = bytes.chunks(8).take(found.records).map(|record| record.try_into().unwrap());
    found.accepted.then(|| records.collect())
}

fn given(q: u8, x: u8, r: u8) -> [u8; 8] {
    [q, x, r, b'G', 0, 0, 0, 0]
}

#[test]
fn listings_by_hand() {
    // (0, 0, 3) is by 0 -> 32 0 at 1: first the terminal before it, then (1, 0, 3) after its two terminals, which meet at 2.
    let tail = [given(1, 32, 2), given(2, 33, 3), [1, 0, 3, b'P', 32, 33, 2, 0]];
    let whole = [&[given(0, 32, 1)], &tail[..], &[[0, 0, 3, b'P', 32, 0, 1, 0]]].concat();
    assert_eq!(listing(CHAIN.text, &[0]), Some(whole));
    assert_eq!(listing(CHAIN.text, &[32, 0]), Some([&[given(0, 32, 1)], &tail[..]].concat()));
    assert_eq!(listing(CHAIN.text, &[32, 32, 33]), Some(vec![given(0, 32, 1), given(1, 32, 2), given(2, 33, 3)]));
    assert_eq!(listing(CHAIN.text, &[32]), None);
    // Both premises are one transition, which is listed once.
    assert_eq!(listing(LOOP.text, &[0]), Some(vec![given(0, 32, 0), [0, 0, 0, b'P', 32, 32, 0, 0]]));
    let twice = vec![given(0, 32, 1), given(1, 32, 2), [0, 0, 2, b'P', 32, 32, 1, 0]];
    assert_eq!(listing(TWICE.text, &[0]), Some(twice));
    let empty = [0, 1, 0, b'E', 0, 0, 0, 0];
    assert_eq!(listing(EMPTY_BESIDE.text, &[0]), Some(vec![empty, given(0, 32, 1), [0, 0, 1, b'P', 1, 32, 0, 0]]));
}

/// A step reads the done terminals of a table that no start wrote, and 4 to 255 as absent.
#[test]
fn terminals_that_no_record_gave() {
    let job = assemble("S 0\nP 0 32 33\nI 0\n").unwrap();
    let (mut table, mut reasons) = (vec![255; 65_536], vec![5; 32_768]);
    table[place((5, 32, 6))] = 3;
    table[place((6, 33, 9))] = 1;
    let advanced = advance(&job, &mut table, &mut reasons, 1).unwrap();
    assert_eq!((advanced.finished, advanced.steps, advanced.meetings), (false, 1, 1));
    assert_eq!((table[place((5, 0, 9))], reasons[5 * 1024 + 9]), (1, 1 + 6 + 65_536 * 2));
    assert_eq!((table[place((5, 32, 6))], table[place((6, 33, 9))], table[place((5, 0, 6))]), (3, 2, 255));
    assert_eq!(reasons.iter().filter(|reason| **reason != 5).count(), 1);
    // Where all is pending, each pair of terminals meets at every three states by the end.
    for (text, meetings) in [("S 0\nP 0 32 33\nI 0\n", 32_768), ("S 0\nP 0 63 63\nP 1 63 0\nI 0\n", 65_536)] {
        let (mut table, mut reasons) = (vec![1; 65_536], vec![5; 32_768]);
        let advanced = advance(&assemble(text).unwrap(), &mut table, &mut reasons, u64::MAX).unwrap();
        assert_eq!((advanced.finished, advanced.steps, advanced.meetings), (true, 65_536, meetings));
        assert!(table.iter().all(|byte| *byte == 2) && reasons.iter().all(|reason| *reason == 5));
    }
}

/// empty, growing, and the codes that are not 0.
fn judged(text: &str) -> (bool, bool, Vec<(usize, u8)>) {
    let (mut table, mut codes) = (vec![1; 65_536], [9; 64]);
    let found = verdicts(&assemble(text).unwrap(), &mut table, &mut codes).unwrap();
    (found.empty, found.growing, codes.into_iter().enumerate().filter(|(_, code)| *code != 0).collect())
}

#[test]
fn codes_by_hand() {
    // No U record at all: the pair of terminals is the string.
    assert_eq!(judged("S 0\nP 0 32 63\n"), (false, false, vec![(0, 1), (32, 1), (63, 1)]));
    // 36 stands beside 3, which derives nothing; 34 in a rule that is not reached; 35 in one that derives nothing.
    assert_eq!(
        judged("S 0\nP 0 32 33\nP 0 36 3\nP 1 34 32\nP 2 35 3\n"),
        (false, false, vec![(0, 1), (1, 3), (2, 2), (3, 2), (32, 1), (33, 1), (34, 3), (35, 3), (36, 3)])
    );
    // The rule leads back to 0 and never ends.
    assert_eq!(judged("S 0\nP 0 32 0\n"), (true, false, vec![(0, 2), (32, 3)]));
}

/// A pair rule grows on a cycle of useful symbols, whichever place the terminal has.
#[test]
fn growing_by_hand() {
    let useful = |symbols: &[usize]| symbols.iter().map(|symbol| (*symbol, 1)).collect();
    assert_eq!(judged("S 0\nP 0 32 0\nE 0\n"), (false, true, useful(&[0, 32])));
    assert_eq!(judged("S 0\nP 0 0 32\nU 0 33\n"), (false, true, useful(&[0, 32, 33])));
    assert_eq!(judged("S 0\nP 0 32 1\nU 1 0\nU 0 33\n"), (false, true, useful(&[0, 1, 32, 33])));
    // Off the cycle, by a symbol that derives nothing, and by one that is not reached.
    assert_eq!(judged("S 0\nP 0 32 1\nU 1 33\n"), (false, false, useful(&[0, 1, 32, 33])));
    assert_eq!(judged("S 0\nU 0 33\nP 0 32 1\nP 1 32 1\n"), (false, false, vec![(0, 1), (1, 2), (32, 3), (33, 1)]));
    assert_eq!(judged("S 0\nU 0 33\nP 1 32 1\nE 1\n"), (false, false, vec![(0, 1), (1, 3), (32, 3), (33, 1)]));
}

/// Bytes 0 to 63 of a body are taken by every operation, 64 to 255 are refused by 4 with the record's number, and the record is shown.
#[test]
fn every_value_in_a_body() {
    for (field, value) in [2, 3].into_iter().flat_map(|field| (0..=255).map(move |value| (field, value))) {
        let mut record = [b'P', 1, 2, 33];
        record[field] = value;
        let job = [*b"S\0\0\0", *b"I\0\0\0", record, *b"P\x01\x02\x40"].concat();
        // Record 3 is refused in any case; record 2 before it where its own byte is above 63.
        let (number, shown) = if value < 64 { (3, &job[12..]) } else { (2, &record[..]) };
        assert_eq!(show_refused(&job), shown, "{record:?}");
        let (mut table, mut reasons, mut codes) = (vec![1; 65_536], vec![1; 32_768], [9; 64]);
        let refusal = Refusal::of(Operation::Table, 4, number);
        for (job, refused) in [(&job[..], Some(refusal)), (&job[..12], Some(refusal).filter(|_| value > 63))] {
            let (t, r) = (&mut table[..], &mut reasons[..]);
            assert_eq!(verdicts(job, t, &mut codes).err(), refused, "{record:?}");
            assert_eq!(start(job, t, r).err(), refused, "{record:?}");
            assert_eq!(advance(job, t, r, 9).err(), refused, "{record:?}");
            assert_eq!(ask(job, t, &[33]).err(), refused, "{record:?}");
            assert_eq!(explain(job, t, r, &[33], &mut []).err(), refused, "{record:?}");
            let untouched = t.iter().all(|byte| *byte == 1) && r.iter().all(|n| *n == 1) && codes == [9; 64];
            assert_eq!(untouched, refused.is_some(), "{record:?}");
            assert_eq!(show_refused(job).is_empty(), refused.is_none(), "{record:?}");
        }
    }
}

/// Both bytes at once.
#[test]
fn every_body() {
    for (x, y) in (0..=255).flat_map(|x| (0..=255).map(move |y| (x, y))) {
        let job = [b'S', 0, 0, 0, b'P', 31, x, y];
        let shown = if x < 64 && y < 64 { &[][..] } else { &job[4..] };
        assert_eq!(show_refused(&job), shown, "{x} {y}");
    }
}

/// The terminals that stand in pairs.
fn paired_terminals(job: &[u8]) -> BTreeSet<u8> {
    let pairs = job.chunks(4).filter(|record| record[0] == b'P');
    pairs.flat_map(|record| [record[2], record[3]]).filter(|symbol| *symbol > 31).collect()
}

/// That something was met so often that a test means something.
fn often<T: std::fmt::Debug + Ord>(met: &BTreeMap<T, usize>, expected: impl IntoIterator<Item = T>) {
    for what in expected {
        assert!(met.get(&what).is_some_and(|count| *count >= 50), "{what:?} is met too seldom: {met:?}");
    }
}

#[test]
fn verdicts_of_random_grammars() {
    let mut random = seed("verdicts_of_random_grammars");
    let mut workspace = Workspace::new();
    let (mut verdicts_met, mut codes_met) = (BTreeMap::new(), BTreeMap::new());
    for _ in 0..1_500 {
        let _told = ToldOnFailure(format!("grammar from seed {}", random.seed()));
        let job = jobs::accepted(&mut random, Pairs::Symbols);
        let (found, codes) = workspace.verdicts(&job).unwrap();
        let mut expected = [9; 64];
        let (empty, growing) = machine::verdicts(&job, &mut vec![0; 65_536], &mut expected).unwrap();
        assert_eq!((found.empty, found.growing, codes), (empty, growing, expected));
        *verdicts_met.entry((empty, growing)).or_default() += 1;
        paired_terminals(&job).iter().for_each(|x| *codes_met.entry(codes[usize::from(*x)]).or_default() += 1);
    }
    // An empty language does not grow, and a terminal derives itself.
    often(&verdicts_met, [(false, false), (false, true), (true, false)]);
    often(&codes_met, [1, 3]);
    assert_eq!((verdicts_met.len(), codes_met.len()), (3, 2));
}

/// A job with a variable, named by no record, and its U record for each terminal that stands in pairs; none where too few variables are left.
/// The variables come beside it.
fn without_terminals_in_pairs(job: &[u8]) -> Option<(Vec<u8>, BTreeSet<u8>)> {
    let named: BTreeSet<u8> = job.chunks(4).flat_map(names).collect();
    let terminals = paired_terminals(job);
    let variables: BTreeMap<u8, u8> = terminals.into_iter().zip((0..32).filter(|a| !named.contains(a))).collect();
    let variable = |x: u8| if x < 32 { Some(x) } else { variables.get(&x).copied() };
    let mut records: Vec<Record> = variables.iter().map(|(x, a)| [b'U', *a, *x, 0]).collect();
    for record in job.chunks(4) {
        records.push(match *record {
            [b'P', a, x, y] => [b'P', a, variable(x)?, variable(y)?],
            _ => record.try_into().ok()?,
        });
    }
    Some((records.concat(), variables.into_values().collect()))
}

/// A variable for each terminal changes nothing for the symbols that were there before.
#[test]
fn a_variable_for_each_terminal_says_the_same() {
    let mut random = seed("a_variable_for_each_terminal_says_the_same");
    let (mut one, mut other) = (Workspace::new(), Workspace::new());
    let mut met = BTreeMap::new();
    for _ in 0..2_000 {
        let _told = ToldOnFailure(format!("grammar from seed {}", random.seed()));
        let job = jobs::accepted(&mut random, Pairs::Symbols);
        let Some((spelled, fresh)) = without_terminals_in_pairs(&job).filter(|(_, fresh)| !fresh.is_empty()) else {
            continue;
        };
        let old: Vec<u8> = (0..64).filter(|symbol| !fresh.contains(symbol)).collect();
        let ((found, codes), (expected, expected_codes)) =
            (one.verdicts(&job).unwrap(), other.verdicts(&spelled).unwrap());
        assert_eq!(found, expected);
        old.iter().map(|x| usize::from(*x)).for_each(|x| assert_eq!(codes[x], expected_codes[x], "code of {x}"));
        assert!(fresh.iter().all(|a| codes[usize::from(*a)] == 0));
        let Ok(started) = one.start(&job) else { continue };
        let (finished, expected) = (started.finish(), other.start(&spelled).unwrap().finish());
        for (q, r) in (0..32).flat_map(|q| (0..32).map(move |r| (q, r))) {
            old.iter().for_each(|x| assert_eq!(finished.holds((q, *x, r)), expected.holds((q, *x, r)), "{q} {x} {r}"));
        }
        let accepted = one.report(&job).unwrap().start;
        assert_eq!(accepted, other.report(&spelled).unwrap().start);
        *met.entry((accepted, found.empty, found.growing)).or_default() += 1;
    }
    // Where the language is empty, the start symbol may still be accepted, by given transitions of variables.
    often(
        &met,
        [(true, false, false), (true, false, true), (false, false, false), (false, false, true), (false, true, false)],
    );
}
