//! The measured jobs.

use crate::random::Random;

fn add(job: &mut Vec<u8>, record: [u8; 4]) -> bool {
    let new = !job.chunks(4).any(|r| r == record);
    if new {
        job.extend(record);
    }
    new
}

fn below(random: &mut Random, n: usize) -> u8 {
    random.below(n) as u8
}

fn frame(states: u8) -> Vec<u8> {
    vec![b'S', 0, 0, 0, b'I', 0, 0, 0, b'F', states - 1, 0, 0]
}

/// 24 variables, 90 rules, 20 states.
fn typical() -> Vec<u8> {
    let (mut random, mut job, mut rules) = (Random(7), frame(20), 0);
    while rules < 90 {
        let (a, b, c) = (below(&mut random, 24), below(&mut random, 24), below(&mut random, 24));
        rules += match below(&mut random, 8) {
            0 => add(&mut job, [b'E', a, 0, 0]),
            1 => add(&mut job, [b'U', a, b, 0]),
            2 | 3 => add(&mut job, [b'U', a, 32 + c % 10, 0]),
            _ => add(&mut job, [b'P', a, b, c]),
        } as usize;
    }
    for q in 0..19 {
        add(&mut job, [b'T', q, 32 + q % 10, q + 1]);
        add(&mut job, [b'T', q, 32 + below(&mut random, 10), below(&mut random, 20)]);
    }
    job
}

/// S → S S | a on a chain of 31 symbols.
fn chain() -> Vec<u8> {
    let mut job = frame(32);
    job.extend([b'P', 0, 0, 0, b'U', 0, 32, 0]);
    for q in 0..31 {
        job.extend([b'T', q, 32, q + 1]);
    }
    job
}

/// S → S S | a on a ring of 32 states, from each of which S leads to every state.
fn ring() -> Vec<u8> {
    let mut job = chain();
    job.extend([b'T', 31, 32, 0]);
    job
}

/// A chain of unit rules over every pair of states.
fn units() -> Vec<u8> {
    let mut job = frame(32);
    for a in 0..31 {
        job.extend([b'U', a, a + 1, 0]);
    }
    job.extend([b'U', 31, 32, 0]);
    for q in 0..32 {
        for r in 0..32 {
            job.extend([b'T', q, 32, r]);
        }
    }
    job
}

/// 256 random pair rules on 32 states.
fn pairs() -> Vec<u8> {
    let (mut random, mut job, mut rules) = (Random(11), frame(32), 0);
    while rules < 256 {
        let (a, b, c) = (below(&mut random, 32), below(&mut random, 32), below(&mut random, 32));
        rules += add(&mut job, [b'P', a, b, c]) as usize;
    }
    for q in 0..32 {
        for a in 0..8 {
            add(&mut job, [b'T', q, a, (q + 1 + a) % 32]);
        }
    }
    job
}

/// As many records as a job may have.
pub fn records() -> Vec<u8> {
    let mut job = frame(32);
    'fill: for x in 32..64 {
        for q in 0..32 {
            for r in 0..32 {
                if job.len() == 16_384 {
                    break 'fill;
                }
                job.extend([b'T', q, x, r]);
            }
        }
    }
    job
}

pub fn all() -> Vec<(&'static str, Vec<u8>)> {
    vec![
        ("typical job (24 variables, 90 rules, 20 states)", typical()),
        ("S -> S S | a on a chain of 31", chain()),
        ("S -> S S | a on a ring of 32", ring()),
        ("unit chain on a full table", units()),
        ("256 random pair rules on 32 states", pairs()),
        ("4096 records", records()),
    ]
}
