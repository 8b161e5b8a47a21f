//! Ask, explain and the report's start line against Cocke, Kasami and Younger, on random grammars in Chomsky normal form, with terminals in pairs
//! besides, and chains of up to 31 symbols.
mod support;

use ropeclover::{ask, Workspace};
use std::collections::BTreeSet;
use support::cky::{self, Grammar};
use support::jobs::Pairs;
use support::{seed, Random};

fn grammar(random: &mut Random, bodies: Pairs) -> Grammar {
    let variables = 2 + random.below(6);
    let letters = 1 + random.below(3);
    let mut pairs = BTreeSet::new();
    let mut terminals = BTreeSet::new();
    for _ in 0..2 + random.below(14) {
        let head = random.byte_below(variables);
        pairs.insert((head, bodies.symbol(random, variables, letters), bodies.symbol(random, variables, letters)));
    }
    for _ in 0..2 + random.below(5) {
        terminals.insert((random.byte_below(variables), 32 + random.byte_below(letters)));
    }
    Grammar { pairs: pairs.into_iter().collect(), terminals: terminals.into_iter().collect() }
}

/// The terminals of the rules, as often as they stand there.
fn letters(grammar: &Grammar) -> Vec<u8> {
    let in_pairs = grammar.pairs.iter().flat_map(|(_, b, c)| [*b, *c]).filter(|symbol| *symbol > 31);
    grammar.terminals.iter().map(|(_, letter)| *letter).chain(in_pairs).collect()
}

fn job(random: &mut Random, grammar: &Grammar, word: &[u8]) -> Vec<u8> {
    let mut records: Vec<[u8; 4]> = vec![[b'S', 0, 0, 0], [b'I', 0, 0, 0], [b'F', word.len() as u8, 0, 0]];
    records.extend(grammar.pairs.iter().map(|(a, b, c)| [b'P', *a, *b, *c]));
    records.extend(grammar.terminals.iter().map(|(a, x)| [b'U', *a, *x, 0]));
    records.extend(word.iter().enumerate().map(|(i, x)| [b'T', i as u8, *x, i as u8 + 1]));
    random.shuffle(&mut records);
    records.concat()
}

fn compare(test: &str, bodies: Pairs) {
    let mut random = seed(test);
    let mut workspace = Workspace::new();
    let mut accepted = 0;
    for _ in 0..2_000 {
        let grammar = grammar(&mut random, bodies);
        let longest = if random.one_in(4) { 31 } else { 8 };
        let length = 1 + random.below(longest);
        let letters = letters(&grammar);
        let word: Vec<u8> = (0..length).map(|_| *random.pick(&letters)).collect();
        let job = job(&mut random, &grammar, &word);
        let expected = cky::derives(&grammar, 0, &word);
        accepted += expected as usize;
        let report = workspace.report(&job).unwrap();
        assert_eq!(report.start, expected);
        let explanation = workspace.explain(&job, &[0]).unwrap();
        assert_eq!(explanation.accepted, expected);
        // Every symbol and every part of the word: the sets M[i][j] of the algorithm.
        let sets = cky::sets(&grammar, &word);
        let done = |q: usize, x: usize, r: usize| workspace.table()[q * 2048 + x * 32 + r] >= 2;
        for (i, row) in sets.iter().enumerate().take(length) {
            for (d, set) in row.iter().enumerate().take(length - i) {
                (0..64).for_each(|x| assert_eq!(done(i, x, i + d + 1), set >> x & 1 == 1));
            }
        }
        // Forms of two symbols, by splitting the word.
        let form = [bodies.symbol(&mut random, 8, 3), bodies.symbol(&mut random, 8, 3)];
        let split =
            (1..length).any(|k| sets[0][k - 1] >> form[0] & 1 == 1 && sets[k][length - k - 1] >> form[1] & 1 == 1);
        assert_eq!(ask(&job, workspace.table(), &form).unwrap(), split);
    }
    assert!(accepted > 100, "too few accepted words to mean anything");
}

#[test]
fn words_are_derived_as_cky_says() {
    compare("words_are_derived_as_cky_says", Pairs::Variables);
}

#[test]
fn words_by_terminals_in_pairs_are_derived_as_cky_says() {
    compare("words_by_terminals_in_pairs_are_derived_as_cky_says", Pairs::Symbols);
}
