//! Verdicts where other checkers go wrong, and at the limits.
use ropeclover::{text::assemble, verdicts, Operation, Refusal};

fn judge(text: &str) -> (bool, bool, Vec<u8>) {
    let (mut table, mut codes) = (vec![1; 65_536], vec![9; 64]);
    let found = verdicts(&assemble(text).unwrap(), &mut table, &mut codes).unwrap();
    assert!(table.iter().all(|byte| *byte == 0));
    (found.empty, found.growing, codes)
}

/// In S -> A B with no rule for B, a walk over rule bodies from the start would call A useful.
#[test]
fn a_symbol_beside_an_unproductive_one_is_useless() {
    let (empty, growing, codes) = judge("S 0\nP 0 1 2\nU 1 32\n");
    assert_eq!((empty, growing), (true, false));
    assert_eq!((codes[0], codes[1], codes[2], codes[32]), (2, 3, 2, 3));
}

/// Where a symbol derives nothing and is not reached either, the code is 2.
#[test]
fn two_comes_before_three() {
    let (_, _, codes) = judge("S 0\nU 0 32\nU 5 6\n");
    assert_eq!((codes[5], codes[6]), (2, 2));
}

/// The zero fields of E and U name nothing: variable 0 is named by neither rule here.
#[test]
fn zero_fields_name_nothing() {
    let (empty, _, codes) = judge("S 1\nE 1\nU 2 33\n");
    assert!(!empty);
    assert_eq!((codes[0], codes[1], codes[2], codes[33]), (0, 1, 3, 3));
}

#[test]
fn a_grammar_of_256_rules() {
    let mut text = String::from("S 0\nU 31 32\n");
    // 0 -> 1 1, 1 -> 2 2, .. 30 -> 31 31: every variable is useful and nothing grows.
    (0..31).for_each(|a| text.push_str(&format!("P {a} {} {}\n", a + 1, a + 1)));
    // 224 more rules downwards, none of which leads back.
    (0..224).for_each(|n| text.push_str(&format!("P {} {} 31\n", n % 8, 9 + n / 8 % 22 + (n / 176))));
    let mut lines: Vec<&str> = text.lines().collect();
    lines.sort();
    lines.dedup();
    let (empty, growing, codes) = judge(&lines.join("\n"));
    assert_eq!((empty, growing), (false, false));
    assert!(codes[..33].iter().all(|code| *code == 1) && codes[33..].iter().all(|code| *code == 0));
}

#[test]
fn codes_buffers() {
    let job = assemble("S 0\nU 0 32\n").unwrap();
    for length in [63, 64, 65] {
        let (mut table, mut codes) = (vec![1; 65_540], vec![9; length]);
        let found = verdicts(&job, &mut table, &mut codes);
        if length < 64 {
            assert_eq!(found, Err(Refusal::of(Operation::Table, 10, 3)));
            assert!(codes.iter().all(|code| *code == 9) && table.iter().all(|byte| *byte == 1));
        } else {
            assert!(found.is_ok());
            assert_eq!((codes[0], codes[32], codes[63]), (1, 1, 0));
            assert!(codes[64..].iter().all(|code| *code == 9) && table[65_536..].iter().all(|byte| *byte == 1));
        }
    }
    // A short table is told first; no I is needed.
    assert_eq!(verdicts(&job, &mut [0; 9], &mut [0; 9]), Err(Refusal::of(Operation::Table, 10, 1)));
}
