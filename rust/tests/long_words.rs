//! What each named variable derives is the same before and after long bodies are split: the words of the productions as they stand, by a recogniser
//! that splits nothing, against Cocke, Kasami and Younger and against the library on the job written.
mod support;

use ropeclover::{long::binarized, Workspace};
use support::cky::{self, Grammar};
use support::jobs::Pairs;
use support::long_jobs::{padded, rule};
use support::productions::{derived, sample, Production};
use support::{seed, Random};

const LETTERS: usize = 3;
const LONGEST: usize = 12;

/// Productions of few variables; where `any` is not set, none has an empty body or a single variable.
fn productions(random: &mut Random, variables: usize, any: bool) -> Vec<Production> {
    let symbol = |random: &mut Random| match random.below(2) {
        0 => random.byte_below(variables),
        _ => 32 + random.byte_below(LETTERS),
    };
    let mut found: Vec<Production> =
        (0..variables).map(|head| (head as u8, vec![32 + random.byte_below(LETTERS)])).collect();
    for _ in 0..1 + random.below(4) {
        let length = *random.pick(&[0, 1, 2, 3, 3, 4, 5, 6, 7, 8]);
        if any || length > 1 {
            found.push((random.byte_below(variables), (0..length).map(|_| symbol(random)).collect()));
        }
    }
    found.sort();
    found.dedup();
    found
}

/// The words to try: all short ones, and some that the productions derive, as they are and with a letter changed.
fn words(random: &mut Random, productions: &[Production], variables: usize) -> Vec<Vec<u8>> {
    let mut words = vec![vec![]];
    for length in 0..3 {
        let longer: Vec<Vec<u8>> = words.iter().filter(|word: &&Vec<u8>| word.len() == length).cloned().collect();
        words.extend(longer.iter().flat_map(|word| (0..LETTERS as u8).map(|x| [&word[..], &[32 + x]].concat())));
    }
    for _ in 0..20 {
        let start = random.byte_below(variables);
        let Some(mut word) = sample(random, productions, start, LONGEST) else { continue };
        words.push(word.clone());
        if !word.is_empty() {
            let at = random.below(word.len());
            word[at] = 32 + random.byte_below(LETTERS);
            words.push(word);
        }
    }
    words
}

/// The long job of some productions and a word's chain of states. Rules of up to two symbols are now and then spelled as a job's records, of which
/// the pairs hold such symbols.
fn long_job(random: &mut Random, productions: &[Production], word: &[u8], pairs: Pairs) -> Vec<u8> {
    let mut records = vec![padded(b"S\0"), padded(b"I\0"), padded(&[b'F', word.len() as u8])];
    for (head, body) in productions {
        let short = match body[..] {
            [] => Some(padded(&[b'E', *head])),
            [x] => Some(padded(&[b'U', *head, x])),
            [x, y] if pairs == Pairs::Symbols || (x < 32 && y < 32) => Some(padded(&[b'P', *head, x, y])),
            _ => None,
        };
        records.push(short.filter(|_| random.one_in(2)).unwrap_or_else(|| rule(*head, body)));
    }
    records.extend(word.iter().enumerate().map(|(i, x)| padded(&[b'T', i as u8, *x, i as u8 + 1])));
    random.shuffle(&mut records);
    records.concat()
}

/// The grammar of a job that has no E record and no U record of a variable.
fn grammar(job: &[u8]) -> Grammar {
    let rules = |kind: u8| job.chunks(4).filter(move |record| record[0] == kind);
    assert_eq!(rules(b'E').count() + rules(b'U').filter(|record| record[2] < 32).count(), 0);
    Grammar {
        pairs: rules(b'P').map(|record| (record[1], record[2], record[3])).collect(),
        terminals: rules(b'U').map(|record| (record[1], record[2])).collect(),
    }
}

/// Which variables derive a whole word, before and after: the words by cky, or by the library where bodies may be of any length. Counts the yeses
/// for words of three letters and more.
fn compare(test: &str, any: bool, pairs: Pairs, after: impl Fn(&[u8], &[u8], u8) -> bool) {
    let mut random = seed(test);
    let (mut yes, mut no) = (0, 0);
    for _ in 0..150 {
        let variables = 1 + random.below(3);
        let productions = productions(&mut random, variables, any);
        for word in words(&mut random, &productions, variables) {
            // Too few free variables for some: the limits have tests of their own.
            let Ok(job) = binarized(&long_job(&mut random, &productions, &word, pairs)) else { continue };
            let parts = derived(&productions, &word);
            for variable in 0..variables as u8 {
                let before = parts[usize::from(variable)].contains(&(0, word.len()));
                assert_eq!(after(&job, &word, variable), before, "{variable} {word:?} {productions:?}");
                let counted = if before { &mut yes } else { &mut no };
                *counted += usize::from(word.len() > 2);
            }
        }
    }
    assert!(yes > 500 && no > 500, "too few words to mean anything: {yes} and {no}");
}

/// The algorithm is for words that are not empty; no variable derives that one where every body has a symbol.
fn by_cky(job: &[u8], word: &[u8], variable: u8) -> bool {
    !word.is_empty() && cky::derives(&grammar(job), variable, word)
}

fn by_saturation(job: &[u8], word: &[u8], variable: u8) -> bool {
    let mut workspace = Workspace::new();
    let finished = workspace.start(job).unwrap().finish();
    finished.holds((0, variable, word.len() as u8))
}

#[test]
fn words_by_cky() {
    compare("words_by_cky", false, Pairs::Variables, by_cky);
}

#[test]
fn words_by_saturation() {
    compare("words_by_saturation", true, Pairs::Variables, by_saturation);
}

#[test]
fn words_with_terminals_in_pairs_by_cky() {
    compare("words_with_terminals_in_pairs_by_cky", false, Pairs::Symbols, by_cky);
}

#[test]
fn words_with_terminals_in_pairs_by_saturation() {
    compare("words_with_terminals_in_pairs_by_saturation", true, Pairs::Symbols, by_saturation);
}
