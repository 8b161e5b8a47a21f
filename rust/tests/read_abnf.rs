//! Reading ABNF text against a reader written apart: random and damaged texts, maps and buffers of lengths around what is needed, all between guards. And
//! what the library promises: the job is accepted, and derives through the map what the text derives by the RFC.
mod support;

use ropeclover::{abnf_grammar, AbnfGrammar, TextRead, COPY_BYTES};
use std::collections::{BTreeMap, BTreeSet};
use support::abnf::read;
use support::abnf_meaning::Meaning;
use support::abnf_texts::{altered, damaged, grammar, noise, small, without_units};
use support::cky::{self, Grammar};
use support::infinite::productions;
use support::strings::derived;
use support::{machine, read_abnf, seed, Guarded, Random, ToldOnFailure};

const FILL: u8 = 0x77;

/// An outcome: the number, and the place where that is not an offset, a length or a count.
type Outcome = (u64, u64);

/// Compares a call on a map and a buffer of these lengths: the answer, and every byte of both.
fn compare(text: &[u8], map: usize, room: usize) -> Outcome {
    let (mut expected_map, mut expected_job) = (vec![FILL; map], vec![FILL; room]);
    let expected = read_abnf::read_abnf(text, &mut expected_map, &mut expected_job);
    let text = Guarded::new(text, 0x5a);
    let (mut map, mut job) = (Guarded::new(&vec![FILL; map], 0xa5), Guarded::new(&vec![FILL; room], 0x3c));
    let found = match ropeclover::read_abnf(text.get(), map.get_mut(), job.get_mut()) {
        Ok(TextRead { records, characters }) => [0, 0, records as u64, characters as u64],
        Err(refusal) => [refusal.number(), refusal.place(), 0, 0],
    };
    assert_eq!(found, expected, "the answer");
    assert_eq!(map.get(), expected_map, "the map");
    assert_eq!(job.get(), expected_job, "the buffer");
    map.check();
    job.check();
    match expected {
        [number @ (7 | 10 | 18), place, ..] => (number, place),
        [number, ..] => (number, 0),
    }
}

/// Compares calls on maps and buffers around what is needed, and counts their outcomes.
fn compare_around(text: &[u8], met: &mut BTreeMap<Outcome, usize>) {
    let needed = read_abnf::written(text, 32, usize::MAX).map_or(20, |written| written.job.len());
    for (map, room) in [(31, needed), (32, needed), (33, needed - 1), (40, needed + 1), (32, 0), (32, COPY_BYTES + 4)] {
        *met.entry(compare(text, map, room)).or_default() += 1;
    }
}

fn met_often(met: &BTreeMap<Outcome, usize>, outcomes: &[Outcome], least: usize) {
    for outcome in outcomes {
        let count = met.get(outcome).copied().unwrap_or(0);
        assert!(count >= least, "{outcome:?} is met too seldom: {met:?}");
    }
}

fn told(text: &[u8]) -> ToldOnFailure {
    ToldOnFailure(format!("text {:?}", String::from_utf8_lossy(text)))
}

#[test]
fn random_texts() {
    let (mut random, mut met) = (seed("random_texts"), BTreeMap::new());
    for _ in 0..30_000 {
        let text = grammar(&mut random);
        let _told = told(&text);
        compare_around(&text, &mut met);
    }
    met_often(&met, &[(0, 0), (13, 0), (10, 3)], 20_000);
    met_often(&met, &[(17, 0), (18, 1), (18, 2), (7, 257)], 2_000);
}

#[test]
fn damaged_texts() {
    let (mut random, mut met) = (seed("damaged_texts"), BTreeMap::new());
    for _ in 0..20_000 {
        let whole = grammar(&mut random);
        let text = match random.below(8) {
            0 => noise(&mut random),
            1..=3 => damaged(&mut random, whole),
            _ => altered(&mut random, whole),
        };
        let _told = told(&text);
        compare_around(&text, &mut met);
    }
    met_often(&met, &[(0, 0), (16, 0), (17, 0), (13, 0)], 10_000);
    met_often(&met, &[(18, 1), (18, 2), (7, 257)], 500);
}

#[test]
fn every_length_around_the_need() {
    let mut random = seed("every_length_around_the_need");
    for _ in 0..100 {
        let text = grammar(&mut random);
        let needed = read_abnf::written(&text, 32, usize::MAX).map_or(20, |written| written.job.len());
        for room in 0..needed + 6 {
            compare(&text, 32, room);
        }
        for map in 0..=40 {
            compare(&text, map, needed);
        }
    }
}

#[test]
fn texts_cut_at_every_byte() {
    let mut random = seed("texts_cut_at_every_byte");
    for _ in 0..200 {
        let text = grammar(&mut random);
        for cut in (0..=text.len()).filter(|cut| text.len() < 300 || cut % 97 == 0) {
            compare(&text[..cut], 32, COPY_BYTES);
        }
    }
}

/// Every value of each byte of a text that has a bit of all.
#[test]
fn every_byte_of_a_text() {
    let text = b"a = b \"c1\" / %x41.62;c\r\nB=\"\"\r\nA =/ a\tb\r\n";
    let mut met: BTreeMap<Outcome, usize> = BTreeMap::new();
    for at in 0..text.len() {
        for byte in 0..=255 {
            let mut text = text.to_vec();
            text[at] = byte;
            *met.entry(compare(&text, 32, COPY_BYTES)).or_default() += 1;
        }
    }
    met_often(&met, &[(0, 0), (16, 0), (17, 0)], 100);
}

/// The texts around the longest: names in plenty, and nothing but a comment.
#[test]
fn texts_around_the_longest() {
    for length in 16_380..=16_390 {
        let comment = [&b"a=\"\";"[..], &vec![b'-'; length - 7], b"\r\n"].concat();
        assert_eq!(compare(&comment, 32, COPY_BYTES), if length > 16_384 { (2, 0) } else { (0, 0) });
        let names: Vec<u8> = (0..).flat_map(|n| format!("n{n}=\"\"\r\n").into_bytes()).take(length).collect();
        assert!([2, 16, 18].contains(&compare(&names, 32, COPY_BYTES).0));
    }
}

/// A random text that is accepted, and its grammar. One of some is.
fn accepted(random: &mut Random, text: impl Fn(&mut Random) -> Vec<u8>) -> (Vec<u8>, AbnfGrammar) {
    let read = |text: Vec<u8>| abnf_grammar(&text).ok().map(|grammar| (text, grammar));
    (0..100).find_map(|_| read(text(random))).expect("an accepted text")
}

/// S is the first record, the rules stand by their ranks, the characters ascend, every terminal is of one of them and each is used; and the job passes
/// the verdicts' checks, by the machine written apart and by the library.
#[test]
fn jobs_are_accepted() {
    let mut random = seed("jobs_are_accepted");
    for _ in 0..5_000 {
        let (text, grammar) = accepted(&mut random, grammar);
        let _told = told(&text);
        let (job, characters) = (&grammar.job, &grammar.characters);
        assert!(machine::check(job, false).is_ok());
        assert!(ropeclover::Workspace::new().verdicts(job).is_ok());
        assert_eq!(job[..4], *b"S\0\0\0");
        let rules: Vec<[u8; 4]> = job[4..].chunks(4).map(|rule| [rule[1], rule[0], rule[2], rule[3]]).collect();
        assert!(rules.windows(2).all(|pair| pair[0] < pair[1]) && rules.iter().all(|rule| b"EUP".contains(&rule[1])));
        assert!(characters.windows(2).all(|pair| pair[0] < pair[1]));
        let terminals: BTreeSet<u8> =
            productions(job).into_iter().flat_map(|(_, body)| body).filter(|x| *x > 31).collect();
        assert!(terminals.into_iter().eq((32..).take(characters.len())));
    }
}

/// The names of variables are those of the reader written apart, and the text that is printed with them is read as the same job with the same names.
#[test]
fn names_of_variables() {
    let mut random = seed("names_of_variables");
    for _ in 0..5_000 {
        let (text, grammar) = accepted(&mut random, grammar);
        let _told = told(&text);
        let names: Vec<&str> = (0..32).filter_map(|variable| grammar.names().symbol_name(variable)).collect();
        assert_eq!(names, read_abnf::variable_names(&text));
        let printed = ropeclover::text::print(&grammar.job, grammar.names()).unwrap();
        let again = ropeclover::text::read(&printed).expect(&printed);
        assert_eq!((&again.bytes, &again.names), (&grammar.job, grammar.names()));
    }
}

/// A length up to which a grammar has not too many strings: the fewer, the more characters it has.
fn longest(characters: usize) -> usize {
    match characters {
        0..=2 => 6,
        3 | 4 => 4,
        5..=8 => 3,
        _ => 2,
    }
}

/// For each name and its variable, the same strings by the RFC and by the job through the map.
#[test]
fn the_same_strings() {
    let mut random = seed("the_same_strings");
    let [mut none, mut some, mut many] = [0; 3];
    for _ in 0..3_000 {
        let (text, read_text) = accepted(&mut random, small);
        let _told = told(&text);
        let longest = longest(read_text.characters.len());
        let expected = Meaning::of(&read(false, &text).unwrap()).strings(longest);
        for (variable, expected) in (0..).zip(expected) {
            let strings = derived(&productions(&read_text.job), variable, longest);
            let character = |terminal: &u8| read_text.characters[usize::from(terminal - 32)];
            let found: BTreeSet<Vec<u8>> = strings.iter().map(|word| word.iter().map(character).collect()).collect();
            assert_eq!(found, expected, "variable {variable}");
            let count = match expected.len() {
                0 => &mut none,
                1..=9 => &mut some,
                _ => &mut many,
            };
            *count += 1;
        }
    }
    assert!([none, some, many].iter().all(|count| *count >= 500), "too seldom: {:?}", [none, some, many]);
}

/// The grammar of a job that has no E record and no U record of a variable.
fn cky_grammar(job: &[u8]) -> Grammar {
    let rules = |kind: u8| job.chunks(4).filter(move |record| record[0] == kind);
    assert_eq!(rules(b'E').count() + rules(b'U').filter(|record| record[2] < 32).count(), 0);
    Grammar {
        pairs: rules(b'P').map(|record| (record[1], record[2], record[3])).collect(),
        terminals: rules(b'U').map(|record| (record[1], record[2])).collect(),
    }
}

/// Every word of up to four characters, one of which no text has, by the RFC and by Cocke, Kasami and Younger on the job, for each name and its variable.
#[test]
fn words_by_cky() {
    let mut random = seed("words_by_cky");
    let mut words: Vec<Vec<u8>> = vec![vec![]];
    for length in 0..4 {
        let longer: Vec<Vec<u8>> = words.iter().filter(|word| word.len() == length).cloned().collect();
        words.extend(longer.iter().flat_map(|word| b"aAbB1x".iter().map(|x| [&word[..], &[*x]].concat())));
    }
    let (mut yes, mut no) = (0, 0);
    for _ in 0..300 {
        let (text, read_text) = accepted(&mut random, without_units);
        let _told = told(&text);
        let (job, meaning) = (cky_grammar(&read_text.job), Meaning::of(&read(false, &text).unwrap()));
        let strings = meaning.strings(4);
        for word in words.iter().filter(|word| !word.is_empty()) {
            // A word with a character that the text does not use is derived by no name.
            let terminals = read_text.word(word);
            for (variable, strings) in (0..).zip(&strings) {
                let found = terminals.as_ref().is_ok_and(|terminals| cky::derives(&job, variable, terminals));
                assert_eq!(found, strings.contains(word), "variable {variable} {word:?}");
                *(if found { &mut yes } else { &mut no }) += 1;
            }
        }
    }
    assert!(yes > 5_000 && no > 100_000, "too few words to mean anything: {yes} and {no}");
}
