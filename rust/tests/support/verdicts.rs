//! The verdicts once more, by reductions to saturation: productive is pre* of T*, reached is pre* of T* X T*.
//! Nothing here resembles the library's passes over flags.
use super::machine::{Job, Rule};
use std::collections::HashSet;

pub struct Found {
    pub codes: [u8; 64],
    pub empty: bool,
    pub growing: bool,
}

type Edges = HashSet<(usize, usize, usize)>;

/// The smallest closed set over `edges`, by trying every rule until nothing changes.
fn closure(rules: &[Rule], mut edges: Edges, states: usize) -> Edges {
    loop {
        let before = edges.len();
        for rule in rules {
            let (a, x, y) = (rule.head as usize, rule.second as usize, rule.third as usize);
            let mut new = vec![];
            for q in 0..states {
                match rule.kind {
                    b'E' => new.push((q, a, q)),
                    b'U' => new.extend((0..states).filter(|r| edges.contains(&(q, x, *r))).map(|r| (q, a, r))),
                    _ => {
                        for m in (0..states).filter(|m| edges.contains(&(q, x, *m))) {
                            new.extend((0..states).filter(|r| edges.contains(&(m, y, *r))).map(|r| (q, a, r)));
                        }
                    }
                }
            }
            edges.extend(new);
        }
        if edges.len() == before {
            return edges;
        }
    }
}

/// Whether `from` derives a string of T* X T*.
fn derives_around(rules: &[Rule], from: usize, x: usize) -> bool {
    let mut edges: Edges = (32..64).flat_map(|a| [(0, a, 0), (1, a, 1)]).collect();
    edges.insert((0, x, 1));
    closure(rules, edges, 2).contains(&(0, from, 1))
}

/// Whether `x` derives u x v with terminal strings u and v, not both empty: pre* of T+ x T* ∪ T* x T+.
fn grows(rules: &[Rule], x: usize) -> bool {
    // States: 0 nothing read, 1 something read before x, 2 x read with nothing around it yet, 3 x and something else read.
    let mut edges: Edges = HashSet::new();
    for a in 32..64 {
        edges.extend([(0, a, 1), (1, a, 1), (2, a, 3), (3, a, 3)]);
    }
    edges.extend([(0, x, 2), (1, x, 3)]);
    closure(rules, edges, 4).contains(&(0, x, 3))
}

pub fn verdicts(job: &Job) -> Found {
    let rules = &job.rules;
    let one_state = closure(rules, (32..64).map(|a| (0, a, 0)).collect(), 1);
    let productive = |x: usize| one_state.contains(&(0, x, 0));
    let mut named = HashSet::from([job.start]);
    for rule in rules {
        named.insert(rule.head as usize);
        if rule.kind != b'E' {
            named.insert(rule.second as usize);
        }
        if rule.kind == b'P' {
            named.insert(rule.third as usize);
        }
    }
    let mut codes = [0; 64];
    for x in named {
        codes[x] = match (productive(x), derives_around(rules, job.start, x)) {
            (false, _) => 2,
            (true, false) => 3,
            (true, true) => 1,
        };
    }
    let growing = (0..64).any(|x| codes[x] == 1 && grows(rules, x));
    Found { codes, empty: !productive(job.start), growing }
}
