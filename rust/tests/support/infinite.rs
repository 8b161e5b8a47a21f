//! Whether a language is infinite, by two decisions that share nothing with the library: by a cycle, once no body is empty, and by the lengths of its
//! strings.
use super::productions::Production;
use std::collections::BTreeSet;

/// The rules of a job.
pub fn productions(job: &[u8]) -> Vec<Production> {
    let production = |record: &[u8]| match *record {
        [b'E', head, ..] => Some((head, vec![])),
        [b'U', head, symbol, _] => Some((head, vec![symbol])),
        [b'P', head, first, second] => Some((head, vec![first, second])),
        _ => None,
    };
    job.chunks(4).filter_map(production).collect()
}

/// The symbols of a set, and then the head of each production whose body passes with them, until that adds none.
fn with_heads(
    productions: &[Production],
    mut symbols: BTreeSet<u8>,
    passes: impl Fn(&BTreeSet<u8>, &[u8]) -> bool,
) -> BTreeSet<u8> {
    loop {
        let heads: Vec<u8> =
            productions.iter().filter(|(_, body)| passes(&symbols, body)).map(|(head, _)| *head).collect();
        let before = symbols.len();
        symbols.extend(heads);
        if symbols.len() == before {
            return symbols;
        }
    }
}

fn all(symbols: &BTreeSet<u8>, body: &[u8]) -> bool {
    body.iter().all(|symbol| symbols.contains(symbol))
}

/// Productions for the same strings, but the empty one, that have no empty body: each body without any choice of its symbols that derive the empty
/// string.
pub fn without_empty_bodies(productions: &[Production]) -> Vec<Production> {
    let vanishing = with_heads(productions, BTreeSet::new(), all);
    let mut found = BTreeSet::new();
    for (head, body) in productions {
        for choice in 0..1 << body.len() {
            let left_out = |i: usize| choice >> i & 1 == 1;
            if (0..body.len()).all(|i| !left_out(i) || vanishing.contains(&body[i])) {
                let kept: Vec<u8> = (0..body.len()).filter(|i| !left_out(*i)).map(|i| body[i]).collect();
                found.insert((*head, kept));
            }
        }
    }
    found.into_iter().filter(|(_, body)| !body.is_empty()).collect()
}

/// The productions that stand in some derivation of a terminal string from the start symbol.
pub fn of_use(productions: &[Production], start: u8) -> Vec<Production> {
    let generating = with_heads(productions, (32..64).collect(), all);
    let kept: Vec<Production> = productions.iter().filter(|(_, body)| all(&generating, body)).cloned().collect();
    let mut reached = BTreeSet::from([start]);
    loop {
        let new: Vec<u8> =
            kept.iter().filter(|(head, _)| reached.contains(head)).flat_map(|(_, body)| body.clone()).collect();
        let before = reached.len();
        reached.extend(new);
        if reached.len() == before {
            return kept.into_iter().filter(|(head, _)| reached.contains(head)).collect();
        }
    }
}

/// Whether a production of use has two symbols of which one leads back to its head.
pub fn has_long_cycle(productions: &[Production], start: u8) -> bool {
    let used = of_use(productions, start);
    used.iter().any(|(head, body)| {
        let leading =
            with_heads(&used, BTreeSet::from([*head]), |symbols, body| body.iter().any(|x| symbols.contains(x)));
        body.len() == 2 && body.iter().any(|symbol| leading.contains(symbol))
    })
}

/// Where no body is empty, a body of two symbols derives strings longer than those of either: a cycle through it never ends, and without such a cycle
/// lengths are bounded.
pub fn infinite_by_cycle(productions: &[Production], start: u8) -> bool {
    has_long_cycle(&without_empty_bodies(productions), start)
}

/// The lengths below 128 of the strings that a symbol derives, as bits.
fn lengths(productions: &[Production]) -> [u128; 64] {
    let mut lengths = [0; 64];
    lengths[32..].fill(1 << 1);
    loop {
        let before = lengths;
        for (head, body) in productions {
            let joined = body.iter().fold(1, |sums, symbol| {
                let more = before[usize::from(*symbol)];
                (0..128).filter(|n| more >> n & 1 == 1).fold(0, |all, n| all | sums << n)
            });
            lengths[usize::from(*head)] |= joined;
        }
        if lengths == before {
            return lengths;
        }
    }
}

/// With k variables and bodies of at most two symbols, a string of 2^(k + 1) symbols or more can be pumped by at most as many: so the language is
/// infinite if and only if it has a string of 2^(k + 1) to 2^(k + 2) - 1 symbols. For at most 5 variables, numbered from 0.
pub fn infinite_by_lengths(productions: &[Production], variables: u32, start: u8) -> bool {
    assert!(variables <= 5);
    let (lengths, low) = (lengths(productions)[usize::from(start)], 1 << (variables + 1));
    (low..2 * low).any(|n| lengths >> n & 1 == 1)
}
