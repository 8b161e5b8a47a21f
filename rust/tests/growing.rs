//! Growing is having infinitely many strings. By hand, where something vanishes beside a cycle; and random grammars rich in empty rules against two
//! decisions that share nothing with the library.
mod support;

use ropeclover::{text::assemble, Workspace};
use std::collections::{BTreeMap, BTreeSet};
use support::infinite::{has_long_cycle, infinite_by_cycle, infinite_by_lengths, productions};
use support::jobs::Record;
use support::{seed, Random, ToldOnFailure};

fn grows(text: &str) -> bool {
    Workspace::new().verdicts(&assemble(text).unwrap()).unwrap().0.growing
}

/// S → SS with S → ε says the empty string alone; with one terminal more it says infinitely many.
#[test]
fn doubling() {
    assert!(!grows("S 0\nP 0 0 0\nE 0\n"));
    assert!(grows("S 0\nP 0 0 0\nE 0\nU 0 32\n"));
    assert!(grows("S 0\nP 0 0 0\nU 0 32\n"));
    // by way of another variable
    assert!(!grows("S 0\nP 0 1 1\nU 1 0\nE 0\n"));
    assert!(grows("S 0\nP 0 1 1\nU 1 0\nE 0\nU 1 63\n"));
}

/// S → A S or S → S A, and S → a: what A derives decides.
#[test]
fn what_stands_beside_the_cycle() {
    let beside = |rules: &str| {
        let [left, right] = ["P 0 1 0", "P 0 0 1"].map(|pair| grows(&format!("S 0\n{pair}\nU 0 32\n{rules}")));
        assert_eq!(left, right, "{rules}");
        left
    };
    assert!(!beside("E 1\n"));
    assert!(beside("E 1\nU 1 33\n"));
    assert!(beside("U 1 33\n"));
    // nothing but the empty string, at the end of a chain and in a body of two
    assert!(!beside("U 1 2\nU 2 3\nE 3\n"));
    assert!(!beside("P 1 2 3\nE 2\nU 3 2\n"));
    assert!(!beside("P 1 1 1\nE 1\n"));
    // a terminal on one side, far down
    assert!(beside("P 1 2 3\nE 2\nU 3 4\nP 4 2 33\n"));
    assert!(beside("P 1 3 2\nE 2\nU 3 4\nP 4 33 2\n"));
    // the terminal stands in a rule that is of no use, as 5 derives nothing
    assert!(!beside("E 1\nP 1 33 5\n"));
    // A itself is on the cycle
    assert!(grows("S 0\nP 0 1 0\nU 0 32\nU 1 0\n"));
}

/// A cycle does not count where it is not reached, or ends in nothing; nor does one of unit rules alone.
#[test]
fn cycles_of_no_use() {
    assert!(!grows("S 0\nE 0\nP 1 1 32\nE 1\n"));
    assert!(!grows("S 0\nE 0\nP 0 32 1\nP 1 1 32\n"));
    assert!(!grows("S 0\nU 0 32\nP 0 0 2\n"));
    assert!(!grows("S 0\nU 0 1\nU 1 0\nU 1 32\nE 0\n"));
    // the vanishing cycle comes first, the growing one is reached through it
    assert!(grows("S 0\nP 0 0 1\nE 0\nP 1 32 1\nE 1\n"));
}

/// A grammar rich in empty rules, and how many variables it may use.
fn grammar(random: &mut Random) -> (Vec<u8>, usize) {
    let variables = *random.pick(&[1, 2, 3, 4, 5, 5, 8, 32]);
    let terminals = *random.pick(&[1, 2, 32]);
    let symbol = |random: &mut Random| {
        if random.one_in(8) {
            32 + random.byte_below(terminals)
        } else {
            random.byte_below(variables)
        }
    };
    let mut records: BTreeSet<Record> = BTreeSet::new();
    for _ in 0..2 + random.below(3 * variables + 4) {
        let head = random.byte_below(variables);
        records.insert(match random.below(10) {
            0..=3 => [b'E', head, 0, 0],
            4 | 5 => [b'U', head, symbol(random), 0],
            _ => [b'P', head, symbol(random), symbol(random)],
        });
    }
    records.insert([b'S', random.byte_below(variables), 0, 0]);
    let mut records: Vec<Record> = records.into_iter().collect();
    random.shuffle(&mut records);
    (records.concat(), variables)
}

#[test]
fn infinitely_many_strings() {
    let mut random = seed("infinitely_many_strings");
    let mut workspace = Workspace::new();
    // How often the language is empty, the grammar has a cycle while its empty bodies are there, and it grows.
    let mut met: BTreeMap<(bool, bool, bool), usize> = BTreeMap::new();
    for _ in 0..20_000 {
        let _told = ToldOnFailure(format!("grammar from seed {}", random.seed()));
        let (job, variables) = grammar(&mut random);
        let start = job.chunks(4).find(|record| record[0] == b'S').unwrap()[1];
        let rules = productions(&job);
        let (found, _) = workspace.verdicts(&job).unwrap();
        assert_eq!(found.growing, infinite_by_cycle(&rules, start), "by a cycle");
        if variables <= 5 {
            assert_eq!(found.growing, infinite_by_lengths(&rules, variables as u32, start), "by lengths");
        }
        *met.entry((found.empty, has_long_cycle(&rules, start), found.growing)).or_default() += 1;
    }
    // Thousands in which the cycle puts nothing beside it but the empty string.
    assert!(met[&(false, true, false)] >= 2_000, "{met:?}");
    assert!(met[&(false, true, true)] >= 2_000 && met[&(false, false, false)] >= 2_000, "{met:?}");
    assert!(met[&(true, false, false)] >= 500 && met.len() == 4, "{met:?}");
}
