//! Derivation by productions with bodies of any length, without splitting them: the least fixed point over the parts of a word.
use super::Random;
use std::collections::BTreeSet;

pub type Production = (u8, Vec<u8>);

/// The parts i..j of a word, as pairs.
pub type Parts = BTreeSet<(usize, usize)>;

/// Where a body that begins at i may end, by the parts that each symbol derives.
fn ends(parts: &[Parts], body: &[u8], i: usize) -> BTreeSet<usize> {
    let mut ends = BTreeSet::from([i]);
    for symbol in body {
        let next = parts[usize::from(*symbol)].iter().filter(|(from, _)| ends.contains(from)).map(|(_, to)| *to);
        ends = next.collect();
    }
    ends
}

/// For each of the 64 symbols, the parts of the word that it derives.
pub fn derived(productions: &[Production], word: &[u8]) -> Vec<Parts> {
    let mut parts = vec![Parts::new(); 64];
    for (i, letter) in word.iter().enumerate() {
        parts[usize::from(*letter)].insert((i, i + 1));
    }
    loop {
        let mut changed = false;
        for (head, body) in productions {
            for i in 0..=word.len() {
                for j in ends(&parts, body, i) {
                    changed |= parts[usize::from(*head)].insert((i, j));
                }
            }
        }
        if !changed {
            return parts;
        }
    }
}

/// A word that a variable derives, by productions picked at random; none where that leads nowhere soon.
pub fn sample(random: &mut Random, productions: &[Production], start: u8, longest: usize) -> Option<Vec<u8>> {
    let mut form = vec![start];
    for _ in 0..40 {
        let Some(at) = form.iter().position(|symbol| *symbol < 32) else { break };
        let choices: Vec<&Production> = productions.iter().filter(|(head, _)| *head == form[at]).collect();
        if choices.is_empty() || form.len() > 2 * longest {
            return None;
        }
        let body = random.pick(&choices).1.clone();
        form.splice(at..=at, body);
    }
    (form.len() <= longest && form.iter().all(|symbol| *symbol > 31)).then_some(form)
}
