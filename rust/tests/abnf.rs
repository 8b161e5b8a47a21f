//! The scan of ABNF text and its cursor against a reader written apart by another method: texts of the part, damaged ones
//! and noise, each of them in both editions, and cut at every byte.
#[path = "support/scanner.rs"]
mod scanner;
mod support;

use support::abnf::read;
use support::abnf_texts::{damaged, noise, text};
use support::Random;

/// The two readers agree on where a text leaves the part, and on what it says where it does not.
fn agree(newer: bool, text: &[u8]) -> bool {
    let shown = || String::from_utf8_lossy(text).into_owned();
    match read(newer, text) {
        Err(offset) => {
            assert_eq!(scanner::scan(newer, text), Some(offset), "newer {newer}: {:?}", shown());
            false
        }
        Ok(lines) => {
            assert_eq!(scanner::scan(newer, text), None, "newer {newer}: {:?}", shown());
            assert_eq!(scanner::lines(newer, text), lines, "newer {newer}: {:?}", shown());
            true
        }
    }
}

/// How many of some texts are of the part, in one edition and in the other.
fn count(mut texts: impl FnMut(&mut Random) -> Vec<u8>, number: usize, seed: u64) -> (usize, usize) {
    let mut random = Random::new(seed);
    let (mut older, mut newer) = (0, 0);
    for _ in 0..number {
        let text = texts(&mut random);
        older += usize::from(agree(false, &text));
        newer += usize::from(agree(true, &text));
    }
    (older, newer)
}

#[test]
fn texts_of_the_part() {
    assert_eq!(count(|random| text(random, false), 10_000, 1), (10_000, 10_000));
    let (older, newer) = count(|random| text(random, true), 10_000, 2);
    assert_eq!(newer, 10_000);
    assert!((1_000..9_000).contains(&older), "{older} of 10,000 texts have no %s and no %i");
}

#[test]
fn damaged_texts() {
    let (_, newer) = count(
        |random| {
            let whole = text(random, true);
            damaged(random, whole)
        },
        40_000,
        3,
    );
    assert!((4_000..36_000).contains(&newer), "{newer} of 40,000 damaged texts are of the part");
}

#[test]
fn noises() {
    let (_, newer) = count(noise, 40_000, 4);
    assert!(newer > 0, "{newer} of 40,000 noises are of the part");
}

#[test]
fn texts_cut_at_every_byte() {
    let mut random = Random::new(5);
    for _ in 0..300 {
        let whole = text(&mut random, true);
        for cut in 0..=whole.len() {
            agree(false, &whole[..cut]);
            agree(true, &whole[..cut]);
        }
    }
}
