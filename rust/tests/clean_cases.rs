//! Clean copies by hand: the rules that stay and their new numbers, worked out from the specification; the checks and their order; the exact limits.
mod support;

use ropeclover::{clean, cleaned, text::assemble, LeftOut, Refusal, Workspace, COPY_BYTES};

/// Compares the copy of one text with the job of another.
fn copies(text: &str, copy: &str) {
    let copied = cleaned(&assemble(text).unwrap()).unwrap();
    assert_eq!(copied, assemble(copy).unwrap(), "{text}");
}

/// The refusal of a job into a buffer of a length, which is left as it was.
fn refused(job: &[u8], length: usize) -> (u64, u64) {
    let mut out = support::Guarded::new(&vec![3; length], 0xa5);
    let refusal = clean(job, out.get_mut()).unwrap_err();
    assert_eq!(out.get(), vec![3; length]);
    out.check();
    (refusal.number(), refusal.place())
}

#[test]
fn the_grammars_on_file() {
    // The report's job: by heads, and in each the P before the U.
    let report = "S 0\nU 0 32\nP 0 1 1\nP 1 0 1\nU 1 33\nI 0\nF 2\nT 0 32 1\nT 1 33 2\nT 2 32 1\n";
    copies(report, "S 0\nP 0 1 1\nU 0 32\nP 1 0 1\nU 1 33\n");
    // Membership: A 0, B 1, C 2, D 3, S 4, T 5, X 6, a 32, b 33. All are useful.
    let membership = "S 4\nP 4 5 5\nP 4 0 2\nP 5 0 2\nP 5 3 0\nP 5 0 1\nP 5 1 0\nP 2 6 1\nP 3 1 6\nP 6 5 5\nP 6 0 1\nP 6 1 0\nU 0 32\nU 1 33\n";
    let sorted = "S 4\nU 0 32\nU 1 33\nP 2 6 1\nP 3 1 6\nP 4 0 2\nP 4 5 5\nP 5 0 1\nP 5 0 2\nP 5 1 0\nP 5 3 0\nP 6 0 1\nP 6 1 0\nP 6 5 5\n";
    copies(membership, sorted);
    // Lecture 25: S 0, A 1, B 2, C 3, a 32, b 33, c 34. In the second example C is in no other rule.
    copies("S 0\nP 0 1 2\nP 1 2 3\nU 1 32\nU 2 33\nU 3 34\n", "S 0\nP 0 1 2\nP 1 2 3\nU 1 32\nU 2 33\nU 3 34\n");
    copies("S 0\nP 0 1 2\nP 1 2 0\nU 1 32\nU 2 33\nU 3 34\n", "S 0\nP 0 1 2\nP 1 2 0\nU 1 32\nU 2 33\n");
    // S -> a, X -> b; and S -> A B, A -> a without a rule for B.
    copies("S 0\nU 0 32\nU 1 33\n", "S 0\nU 0 32\n");
    copies("S 0\nP 0 1 2\nU 1 32\n", "S 0\n");
    // S -> a S, S -> a b, S -> c B without a rule for B.
    copies("S 0\nP 0 32 0\nP 0 32 33\nP 0 34 1\nI 0\nF 3\nT 0 32 1\n", "S 0\nP 0 32 0\nP 0 32 33\n");
    // S -> empty, and S -> S S besides.
    copies("S 0\nE 0\nI 0\nF 0\n", "S 0\nE 0\n");
    copies("S 0\nP 0 0 0\nE 0\nI 0\nF 0\n", "S 0\nE 0\nP 0 0 0\n");
}

/// The bytes, the buffer past them, and the number of records.
#[test]
fn the_bytes_of_a_copy() {
    let job = b"I\x02\0\0P\x1f\x04\x3fT\x02\x3f\x02S\x1f\0\0E\x04\0\0U\x05\x20\0F\0\0\0";
    let mut out = [9; 20];
    assert_eq!(clean(job, &mut out), Ok(3));
    assert_eq!(&out[..12], b"S\x01\0\0E\0\0\0P\x01\0\x3f");
    assert_eq!(out[12..], [9; 8]);
}

/// The useful variables 4, 9 and 31 become 0, 1 and 2, wherever the start symbol is among them.
#[test]
fn gaps_are_closed() {
    let rules = "P 9 4 31\nU 4 63\nE 31\nP 31 9 9\nU 4 9\n";
    let copied = "U 0 1\nU 0 63\nP 1 0 2\nE 2\nP 2 1 1\n";
    for (start, new) in [(4, 0), (9, 1), (31, 2)] {
        // 7 and 8 are never reached, 20 has no rule; the labels and states of an automaton are no part of the grammar.
        for rest in ["", "P 7 9 9\nE 8\nP 4 20 63\n", "I 5\nT 5 6 30\nT 0 0 0\n"] {
            copies(&format!("{rules}S {start}\n{rest}"), &format!("S {new}\n{copied}"));
        }
    }
}

/// In the order of their old numbers, not in that of first use: 3 comes first in each rule and in S.
#[test]
fn numbers_are_not_given_by_first_use() {
    copies("S 3\nP 3 2 1\nU 2 32\nU 1 33\n", "S 2\nU 0 33\nU 1 32\nP 2 1 0\n");
    copies("S 30\nP 30 20 10\nP 20 30 10\nE 10\nE 20\n", "S 2\nE 0\nE 1\nP 1 2 0\nP 2 1 0\n");
}

/// By field 1, kind byte, field 2, field 3: in a head's rules E, then P, then U; in these variables before terminals.
#[test]
fn kinds_in_their_order() {
    copies(
        "U 6 63\nU 6 32\nU 6 5\nP 6 63 5\nP 6 5 63\nP 6 5 5\nP 6 63 32\nE 6\nU 5 40\nS 6\n",
        "S 1\nU 0 40\nE 1\nP 1 0 0\nP 1 0 63\nP 1 63 0\nP 1 63 32\nU 1 0\nU 1 32\nU 1 63\n",
    );
}

/// A rule is left out for one useless symbol, in whichever place; 9 has no rule.
#[test]
fn a_useless_symbol_in_each_place() {
    for rule in ["P 0 9 32", "P 0 32 9", "P 0 9 9", "P 0 0 9", "U 0 9", "U 9 9", "P 9 9 32", "P 9 32 9"] {
        copies(&format!("S 0\nU 0 32\n{rule}\n"), "S 0\nU 0 32\n");
    }
    // 9 derives a string, but is never reached; nor is what its rules lead to.
    for rules in ["E 9", "U 9 32", "U 9 0", "P 9 0 0", "U 9 10\nE 10", "P 9 9 32\nE 9"] {
        copies(&format!("S 0\nU 0 32\n{rules}\n"), "S 0\nU 0 32\n");
    }
}

/// 1 derives strings, and a walk over bodies reaches it; but only beside 2, which derives none. So its number is free for 3.
#[test]
fn beside_a_symbol_without_strings() {
    copies("S 0\nP 0 1 2\nU 1 33\nU 0 3\nE 3\nU 2 2\n", "S 0\nU 0 1\nE 1\n");
    copies("S 0\nP 0 2 1\nU 1 33\nU 0 3\nE 3\nP 2 2 33\n", "S 0\nU 0 1\nE 1\n");
}

#[test]
fn the_start_symbol_alone() {
    copies("S 5\nE 5\n", "S 0\nE 0\n");
    copies("U 5 63\nS 5\nI 3\n", "S 0\nU 0 63\n");
    copies("S 31\nP 31 63 32\nP 31 31 31\n", "S 0\nP 0 0 0\nP 0 63 32\n");
}

/// Whatever else the job holds, and whichever start symbol it has.
#[test]
fn an_empty_language() {
    for text in [
        "S 0\n",
        "S 31\n",
        "S 31\nI 0\nF 0\nT 0 31 0\n",
        "S 4\nU 4 4\nE 3\n",
        "S 7\nP 7 32 7\nU 8 32\n",
        "S 2\nU 1 32\n",
    ] {
        copies(text, "S 0\n");
    }
    let mut out = [9; 8];
    assert_eq!(clean(b"S\x1f\0\0", &mut out), Ok(1));
    assert_eq!(&out, b"S\0\0\0\x09\x09\x09\x09");
    assert_eq!(refused(b"S\x1f\0\0", 3), (13, 1));
}

/// 256 rules of one variable, given last to first.
fn full() -> (Vec<u8>, Vec<u8>) {
    let rules = |head: u8| (0..=255u8).map(move |n| [b'P', head, 32 + n / 16, 48 + n % 16]);
    let job = rules(9).rev().chain([*b"S\x09\0\0"]).flatten().collect();
    (job, [*b"S\0\0\0"].into_iter().chain(rules(0)).flatten().collect())
}

#[test]
fn the_longest_copy() {
    let (job, copy) = full();
    assert_eq!((copy.len(), COPY_BYTES), (1_028, 1_028));
    assert_eq!(cleaned(&job).unwrap(), copy);
    assert_eq!(cleaned(&copy).unwrap(), copy);
    assert_eq!(refused(&job, 1_027), (13, 257));
    assert_eq!(refused(&job, 0), (13, 257));
    // Two of them end in variables without rules.
    let mut less = job.clone();
    (less[3], less[7]) = (1, 2);
    assert_eq!(cleaned(&less).unwrap(), copy[..copy.len() - 8]);
    assert_eq!(refused(&less, 1_019), (13, 255));
}

/// All 32 variables, eight rules each: each is reached from the one before it.
#[test]
fn all_variables() {
    let rules = |head: u8| {
        let mut seconds: Vec<u8> = (1..8).map(|step| (head + step) % 32).collect();
        seconds.sort();
        seconds.into_iter().map(move |second| [b'P', head, second, 63]).chain([[b'U', head, 32, 0]])
    };
    let sorted: Vec<[u8; 4]> = (0..32).flat_map(rules).collect();
    assert_eq!(sorted.len(), 256);
    for start in [0, 17, 31] {
        let job: Vec<u8> = sorted.iter().rev().chain([&[b'S', start, 0, 0]]).copied().flatten().collect();
        let copy: Vec<u8> = [[b'S', start, 0, 0]].iter().chain(&sorted).copied().flatten().collect();
        assert_eq!(cleaned(&job).unwrap(), copy);
    }
}

#[test]
fn a_buffer_one_byte_short() {
    let job = assemble("S 0\nU 0 32\nU 1 33\nI 0\n").unwrap();
    for length in 0..8 {
        assert_eq!(refused(&job, length), (13, 2));
    }
    for length in [8, 9, 12, 2_000] {
        let mut out = vec![3; length];
        assert_eq!(clean(&job, &mut out), Ok(2));
        assert_eq!(&out[..8], b"S\0\0\0U\0\x20\0");
        assert_eq!(out[8..], vec![3; length - 8]);
    }
    assert_eq!(clean(&job, &mut []), Err(Refusal::JobTooShort { records: 2 }));
}

/// The checks of a job come before 13, which tells of the copy alone; an I record is not asked for.
#[test]
fn the_checks_in_their_order() {
    let (full, _) = full();
    for length in [0, COPY_BYTES] {
        let refused = |job: &[u8]| refused(job, length);
        assert_eq!(refused(&[0; 16_388]), (2, 16_388));
        assert_eq!(refused(&[0; 16_385]), (2, 16_385));
        assert_eq!(refused(&[0; 16_383]), (1, 4_095));
        assert_eq!(refused(b"S\0\0\0U\0\x20"), (1, 1));
        assert_eq!(refused(&[0; 16_384]), (3, 0));
        assert_eq!(refused(b"S\0\0\0X\0\0\0"), (3, 1));
        assert_eq!(refused(b"S\0\0\0L\0\0\0"), (3, 1));
        assert_eq!(refused(b"S\0\0\0P\0\x3f\x40"), (4, 1));
        assert_eq!(refused(b"S\0\0\0E\0\0\x01"), (4, 1));
        // The fault of an earlier record comes first, whatever its number.
        assert_eq!(refused(b"S\0\0\0S\0\0\0X\0\0\0"), (5, 1));
        assert_eq!(refused(b"S\0\0\0S\x01\0\0X\0\0\0"), (6, 1));
        assert_eq!(refused(b"I\0\0\0I\x01\0\0"), (6, 1));
        assert_eq!(refused(&[&full[..], b"E\x09\0\0"].concat()), (7, 257));
        assert_eq!(refused(b"I\0\0\0E\0\0\0"), (8, 2));
        assert_eq!(refused(b""), (8, 0));
    }
    assert_eq!(refused(b"S\0\0\0E\0\0\0", 7), (13, 2));
    assert_eq!(cleaned(b"S\0\0\0E\0\0\0").unwrap(), b"S\0\0\0E\0\0\0");
}

/// A job of 4,096 records, of which the copy has two.
#[test]
fn the_longest_job() {
    let given = (0..4_094u16).map(|n| [b'T', (n / 1024) as u8, 32 + (n / 32 % 32) as u8, (n % 32) as u8]);
    let job: Vec<u8> = given.chain([*b"E\x03\0\0", *b"S\x03\0\0"]).flatten().collect();
    assert_eq!(job.len(), 16_384);
    assert_eq!(cleaned(&job).unwrap(), b"S\0\0\0E\0\0\0");
}

/// The rules left out of a text's copy: the record, the symbol, its code.
fn left_out(text: &str) -> Vec<(String, u8, u8)> {
    let spelled = |rule: [u8; 4]| ropeclover::text::spelling(rule, &Default::default()).join(" ");
    let left = Workspace::new().clean(&assemble(text).unwrap()).unwrap().left_out;
    left.into_iter().map(|LeftOut { rule, symbol, code }| (spelled(rule), symbol, code)).collect()
}

/// For a symbol of the body that derives no string, the first of them; else for the head, which is never reached. By ranks.
#[test]
fn why_a_rule_is_left_out() {
    let expected = |rules: &[(&str, u8, u8)]| -> Vec<_> {
        rules.iter().map(|(rule, symbol, code)| (rule.to_string(), *symbol, *code)).collect()
    };
    assert_eq!(left_out("S 0\nU 0 32\nI 0\n"), []);
    // 1 has no rule; 2 is reached beside it alone. The start symbol derives nothing either, but that is not why.
    assert_eq!(left_out("U 2 32\nP 0 2 1\nS 0\n"), expected(&[("P 0 2 1", 1, 2), ("U 2 32 0", 2, 3)]));
    assert_eq!(left_out("S 0\nE 0\nP 0 2 1\nP 3 0 1\n"), expected(&[("P 0 2 1", 2, 2), ("P 3 0 1", 1, 2)]));
    // 4 derives nothing by way of itself.
    assert_eq!(
        left_out("S 0\nE 0\nU 4 4\nE 3\nU 3 33\nP 3 3 0\n"),
        expected(&[("E 3 0 0", 3, 3), ("P 3 3 0", 3, 3), ("U 3 33 0", 3, 3), ("U 4 4 0", 4, 2)])
    );
}
