//! Long bodies by hand: what is written, worked out from the request's words; the order of the checks; and the exact limits.
mod support;

use ropeclover::{binarize, text::assemble};
use support::long_jobs::{padded, rule};

/// The job that a text's long job is written as.
fn written(text: &str) -> Vec<u8> {
    ropeclover::long::binarized(&long(text)).unwrap()
}

/// The long job of a text, whether it has an L line or not.
fn long(text: &str) -> Vec<u8> {
    let read = ropeclover::text::read(text).unwrap();
    if read.is_long {
        return read.bytes;
    }
    read.bytes.chunks(4).flat_map(padded).collect()
}

/// The refusal of a long job into a buffer of a length.
fn refused(text: &[u8], length: usize) -> (u64, u64) {
    let refusal = binarize(text, &mut vec![0; length]).unwrap_err();
    (refusal.number(), refusal.place())
}

fn refused_text(text: &str) -> (u64, u64) {
    refused(&long(text), 16_384)
}

#[test]
fn the_bytes_of_a_rule() {
    let text = *b"S\0\0\0\0\0\0\0\0\0\0\0L\0\x04\x21\x01\x20\x21\0\0\0\0\0I\x02\0\0\0\0\0\0\0\0\0\0";
    // Named are 0 and 1, so the free ones are 2, 3, ...: 2 and 3 for the tails 1 32 33 and 32 33.
    let expected = b"S\0\0\0P\0\x21\x02P\x02\x01\x03P\x03\x20\x21I\x02\0\0";
    let mut job = [9; 32];
    assert_eq!(binarize(&text, &mut job), Ok(5));
    assert_eq!(&job[..20], expected);
    assert_eq!(job[20..], [9; 12]);
}

#[test]
fn bodies_of_each_length() {
    // 0 and 1 give E and U, a terminal as it is; 2 gives P. Fresh are 2 and up.
    assert_eq!(written("S 0\nI 0\nL 0\n"), assemble("S 0\nI 0\nE 0\n").unwrap());
    assert_eq!(written("S 0\nI 0\nL 0 1\nL 0 40\n"), assemble("S 0\nI 0\nU 0 1\nU 0 40\n").unwrap());
    assert_eq!(written("S 0\nI 0\nL 0 1 0\n"), assemble("S 0\nI 0\nP 0 1 0\n").unwrap());
    assert_eq!(written("S 0\nI 0\nL 0 1 40\n"), assemble("S 0\nI 0\nP 0 1 40\n").unwrap());
    assert_eq!(written("S 0\nI 0\nL 0 1 1 1\n"), assemble("S 0\nI 0\nP 0 1 2\nP 2 1 1\n").unwrap());
    assert_eq!(
        written("S 0\nI 0\nL 0 1 0 1 0 1 0 0 1\n"),
        assemble("S 0\nI 0\nP 0 1 2\nP 2 0 3\nP 3 1 4\nP 4 0 5\nP 5 1 6\nP 6 0 7\nP 7 0 1\n").unwrap()
    );
    assert_eq!(
        written("S 0\nI 0\nL 0 32 33 34 35 36 37 38 39\n"),
        assemble("S 0\nI 0\nP 0 32 1\nP 1 33 2\nP 2 34 3\nP 3 35 4\nP 4 36 5\nP 5 37 6\nP 6 38 39\n").unwrap()
    );
}

/// A terminal is written as it is, wherever it stands and stood before.
#[test]
fn terminals_take_no_variable() {
    assert_eq!(
        written("L 0 50\nU 0 51\nT 0 50 0\nS 0\nL 0 50 50\nL 0 51 50\nL 0 0 52 51\nI 0\n"),
        assemble("U 0 50\nU 0 51\nT 0 50 0\nS 0\nP 0 50 50\nP 0 51 50\nP 0 0 1\nP 1 52 51\nI 0\n").unwrap()
    );
}

/// The job written for S 0, I 0, E 1 and an L record of 0 with this body: named are 0 and 1, so the tails begin with 2.
fn written_body(body: &[u8]) -> Vec<u8> {
    let text = [padded(b"S\0"), padded(b"I\0"), padded(b"E\x01"), rule(0, body)].concat();
    ropeclover::long::binarized(&text).unwrap()
}

/// Every choice of terminals for the places of bodies of two and three, and one terminal, or one variable, in each place of bodies of eight.
#[test]
fn terminals_in_each_place() {
    let body = |length: u8, terminals: u8| -> Vec<u8> {
        (0..length).map(|place| if terminals >> place & 1 == 1 { 63 - place } else { 1 }).collect()
    };
    let records = |rules: &str| assemble(&format!("S 0\nI 0\nE 1\n{rules}")).unwrap();
    for [x, y] in (0..4).map(|terminals| <[u8; 2]>::try_from(body(2, terminals)).unwrap()) {
        assert_eq!(written_body(&[x, y]), records(&format!("P 0 {x} {y}\n")));
    }
    for [x, y, z] in (0..8).map(|terminals| <[u8; 3]>::try_from(body(3, terminals)).unwrap()) {
        assert_eq!(written_body(&[x, y, z]), records(&format!("P 0 {x} 2\nP 2 {y} {z}\n")));
    }
    for terminals in (0..8).flat_map(|place| [1 << place, !(1 << place)]) {
        let eight = body(8, terminals);
        let [a, b, c, d, e, f, g, h] = <[u8; 8]>::try_from(&eight[..]).unwrap();
        let tails = format!("P 2 {b} 3\nP 3 {c} 4\nP 4 {d} 5\nP 5 {e} 6\nP 6 {f} 7\nP 7 {g} {h}\n");
        assert_eq!(written_body(&eight), records(&format!("P 0 {a} 2\n{tails}")));
    }
}

/// Named are heads, symbols of bodies within the length, S and variable labels of T; not states, zero fields or padding.
#[test]
fn what_is_named() {
    // 1 by S, 2 by a head, 3 by a body, 5 by U, 6 by E, 7 to 9 by P, 10 by T: so 0, 4, 11 are the first that are free.
    assert_eq!(
        written("S 1\nI 4\nF 0\nT 11 10 12\nU 5 32\nE 6\nP 7 8 9\nL 2 3 60 60 60 61\n"),
        assemble("S 1\nI 4\nF 0\nT 11 10 12\nU 5 32\nE 6\nP 7 8 9\nP 2 3 0\nP 0 60 4\nP 4 60 11\nP 11 60 61\n")
            .unwrap()
    );
    // Beside terminals, too: 1 to 4 by P. A terminal names no variable.
    assert_eq!(
        written("S 0\nI 0\nP 1 37 2\nP 3 4 38\nL 0 0 39 0 0\n"),
        assemble("S 0\nI 0\nP 1 37 2\nP 3 4 38\nP 0 0 5\nP 5 39 6\nP 6 0 0\n").unwrap()
    );
    // What a later record names is not free before it either.
    assert_eq!(
        written("S 0\nI 0\nL 0 0 0 0\nU 1 32\nL 2\n"),
        assemble("S 0\nI 0\nP 0 0 3\nP 3 0 0\nU 1 32\nE 2\n").unwrap()
    );
}

/// Equal bodies have tails of their own.
#[test]
fn tails_are_never_shared() {
    assert_eq!(
        written("S 0\nI 0\nL 0 0 0 0\nL 0 0 0 0\n"),
        assemble("S 0\nI 0\nP 0 0 1\nP 1 0 0\nP 0 0 2\nP 2 0 0\n").unwrap()
    );
    assert_eq!(
        written("S 0\nI 0\nL 0 32 33 34\nL 0 32 33 34\n"),
        assemble("S 0\nI 0\nP 0 32 1\nP 1 33 34\nP 0 32 2\nP 2 33 34\n").unwrap()
    );
}

#[test]
fn the_first_walk() {
    let good = [padded(b"S\0"), padded(b"I\0")].concat();
    let with = |record: [u8; 12]| refused(&[&good[..], &record].concat(), 16_384);
    // 3
    assert_eq!(with(padded(b"X")), (3, 2));
    assert_eq!(with(padded(b"l")), (3, 2));
    assert_eq!(with([b'X', 255, 255, 255, 1, 1, 1, 1, 1, 1, 1, 1]), (3, 2));
    // 4 before 15: the head, a byte within the length, all eight where the length is over 8; past the length it is 15.
    assert_eq!(with(padded(&[b'L', 32, 0])), (4, 2));
    assert_eq!(with(padded(&[b'L', 31, 1, 64])), (4, 2));
    assert_eq!(with(padded(&[b'L', 0, 1, 63, 64])), (15, 2));
    assert_eq!(with([b'L', 0, 8, 0, 0, 0, 0, 0, 0, 0, 64, 1]), (4, 2));
    assert_eq!(with([b'L', 0, 9, 0, 0, 0, 0, 0, 0, 0, 64, 0]), (4, 2));
    assert_eq!(with([b'L', 0, 255, 0, 0, 0, 0, 0, 0, 0, 63, 0]), (15, 2));
    assert_eq!(with([b'L', 0, 9, 0, 0, 0, 0, 0, 0, 0, 0, 0]), (15, 2));
    assert_eq!(with([b'L', 0, 8, 0, 0, 0, 0, 0, 0, 0, 0, 1]), (15, 2));
    assert_eq!(with([b'L', 0, 7, 0, 0, 0, 0, 0, 0, 0, 1, 0]), (15, 2));
    assert_eq!(with([b'U', 0, 64, 0, 1, 0, 0, 0, 0, 0, 0, 0]), (4, 2));
    assert_eq!(with([b'U', 0, 63, 1, 0, 0, 0, 0, 0, 0, 0, 0]), (4, 2));
    assert_eq!(with([b'T', 0, 63, 32, 0, 0, 0, 0, 0, 0, 0, 0]), (4, 2));
    assert_eq!(with([b'P', 0, 63, 64, 0, 0, 0, 0, 0, 0, 0, 0]), (4, 2));
    assert_eq!(with([b'P', 0, 64, 63, 1, 0, 0, 0, 0, 0, 0, 0]), (4, 2));
    assert_eq!(with([b'P', 0, 63, 63, 1, 0, 0, 0, 0, 0, 0, 0]), (15, 2));
    for at in 4..12 {
        let mut record = padded(b"U\0\x3f");
        record[at] = 1;
        assert_eq!(with(record), (15, 2));
    }
    // 6 even for the same bytes, and after 15.
    assert_eq!(with(padded(b"S\0")), (6, 2));
    assert_eq!(with(padded(b"I\x01")), (6, 2));
    assert_eq!(with([b'S', 0, 0, 0, 0, 0, 0, 0, 0, 0, 0, 1]), (15, 2));
    // A length that does not fit stands before every record.
    assert_eq!(refused(&[&good[..], b"X"].concat(), 16_384), (1, 2));
}

/// The second walk comes after the first, and before 8 and 9.
#[test]
fn the_second_walk() {
    // 5: rules of other spellings are written alike.
    assert_eq!(refused_text("S 0\nI 0\nE 0\nL 0\n"), (5, 3));
    assert_eq!(refused_text("S 0\nI 0\nL 0 32\nU 0 32\n"), (5, 3));
    assert_eq!(refused_text("L 0 1 2\nP 0 1 2\n"), (5, 1));
    assert_eq!(refused_text("L 0 1 32\nL 0 1 32\n"), (5, 1));
    assert_eq!(refused_text("P 0 33 32\nL 0 33 32\n"), (5, 1));
    assert_eq!(refused_text("F 1\nF 1\n"), (5, 1));
    // The first walk sees the last record before the second walk sees the first.
    assert_eq!(refused_text("E 0\nE 0\nX\n"), (3, 2));
    assert_eq!(refused_text("E 0\nE 0\nS 0\nS 0\n"), (6, 3));
    // 8 and 9 come last, with the number of records read.
    assert_eq!(refused_text("L 0 1 1 1\n"), (8, 1));
    assert_eq!(refused_text("L 0 1 1 1\nS 0\n"), (9, 2));
    assert_eq!(refused_text("L 0 1 1 1\nI 0\n"), (8, 2));
    assert_eq!(refused(b"", 16_384), (8, 0));
    assert_eq!(refused(&long("L 0 1 1 1\nS 0\n"), 0), (9, 2));
}

/// With variable 0 alone named, 31 are free: five times 6 tails and then 1 take all of them.
const ALL_TAKEN: &str =
    "S 0\nI 0\nL 0 32 33 34 35 36 37 38 39\nL 0 33 32 34 35 36 37 38 39\nL 0 34 32 33 35 36 37 38 39\n\
    L 0 0 0 0 0 0 0 0 0\nL 0 0 40 0 40 0 40 0 40\nL 0 0 41 42\n";

#[test]
fn the_last_free_variable() {
    let job = written(ALL_TAKEN);
    assert_eq!(job[job.len() - 4..], [b'P', 31, 41, 42]);
    assert_eq!(refused_text(&format!("{ALL_TAKEN}L 0 0 0 0\n")), (14, 8));
    assert_eq!(refused_text(&format!("{ALL_TAKEN}L 0 32 33 34\n")), (14, 8));
    // What needs none is still written: bodies of two, one and none, with terminals that stood nowhere before.
    let more = written(&format!("{ALL_TAKEN}L 0 50 51\nL 0 52\nL 0\n"));
    assert_eq!(more, [&job[..], &[b'P', 0, 50, 51, b'U', 0, 52, 0, b'E', 0, 0, 0]].concat());
    // One tail more in the last body.
    let four = ALL_TAKEN.replace("L 0 0 41 42\n", "L 0 0 41 42 43\n");
    assert_eq!(refused_text(&four), (14, 7));
    // All 32 are named: nothing is free.
    let all = named(32);
    assert_eq!(refused_text(&format!("S 0\nI 0\n{all}L 0 1 32 2\n")), (14, 34));
    assert_eq!(written(&format!("S 0\nI 0\n{all}L 0 1 2\nL 0 1 32\n")).len(), 4 * 36);
}

/// Records that name the first variables.
fn named(count: usize) -> String {
    (0..count).map(|variable| format!("E {variable}\n")).collect()
}

/// A body of eight takes six: with 26 variables named there are just these, with 27 one too few, whatever stands in it.
#[test]
fn a_body_of_eight_at_the_limit() {
    for body in ["0 0 0 0 0 0 0 0", "32 33 34 35 36 37 38 39", "0 32 1 32 2 32 3 32"] {
        let symbols: Vec<&str> = body.split(' ').collect();
        let text = |count| format!("S 0\nI 0\n{}L 25 {body}\n", named(count));
        let heads = [25, 26, 27, 28, 29, 30, 31];
        let pairs =
            heads.windows(2).zip(&symbols).map(|(pair, symbol)| format!("P {} {symbol} {}\n", pair[0], pair[1]));
        let last = format!("P 31 {} {}\n", symbols[6], symbols[7]);
        let expected = format!("S 0\nI 0\n{}{}{last}", named(26), pairs.collect::<String>());
        assert_eq!(written(&text(26)), assemble(&expected).unwrap());
        assert_eq!(refused_text(&text(27)), (14, 29));
        // The first seven symbols take five.
        let seven = format!("S 0\nI 0\n{}L 25 {}\n", named(27), symbols[..7].join(" "));
        assert_eq!(written(&seven).len(), 4 * (2 + 27 + 6));
    }
}

/// 14 is tried for all that a record needs before its 7. (What stands already needs no variable, so 14 and 5 never meet.)
#[test]
fn fourteen_comes_before_seven() {
    let all_named: String = (0..256).map(|n| format!("P {} {} 31\n", n / 32, n % 32)).collect();
    assert_eq!(refused_text(&format!("S 0\nI 0\n{all_named}L 0 0 32 0\n")), (14, 258));
    assert_eq!(refused_text(&format!("S 0\nI 0\n{all_named}L 0 0 32\n")), (7, 258));
    assert_eq!(refused_text(&format!("S 0\nI 0\n{all_named}L 0 0 0\n")), (7, 258));
}

/// Pair rules of variables 0 to 7, so that 8 to 31 are free.
fn pairs(count: usize) -> String {
    (0..count).map(|n| format!("P {} {} {}\n", n / 64, n / 8 % 8, n % 8)).collect()
}

#[test]
fn the_most_rules() {
    let long_rule = "L 7 0 1 2 3 4 5 6 7\n";
    // The long rule is written as 7.
    let job = written(&format!("S 0\nI 0\n{}{long_rule}", pairs(249)));
    assert_eq!(job.len(), 4 * (2 + 256));
    assert_eq!(refused_text(&format!("S 0\nI 0\n{}{long_rule}", pairs(250))), (7, 252));
    assert_eq!(refused_text(&format!("S 0\nI 0\n{long_rule}{}", pairs(250))), (7, 252));
    // Records that are no rules come on top; 5 comes before 7.
    assert_eq!(written(&format!("S 0\nI 0\n{}F 0\n", pairs(256))).len(), 4 * (3 + 256));
    assert_eq!(refused_text(&format!("S 0\nI 0\n{}E 0\n", pairs(256))), (7, 258));
    assert_eq!(refused_text(&format!("S 0\nI 0\n{}P 0 0 0\n", pairs(256))), (5, 258));
    assert_eq!(refused_text(&format!("{}U 0 1\nE 0\n", pairs(255))), (7, 256));
}

/// Distinct T records.
fn transitions(count: usize) -> Vec<u8> {
    (0..count).flat_map(|n| padded(&[b'T', (n / 1024) as u8, 32 + (n / 32 % 32) as u8, (n % 32) as u8])).collect()
}

#[test]
fn the_longest_long_job() {
    let start = [padded(b"S\0"), padded(b"I\0")].concat();
    let longest = [&start[..], &transitions(4_094)].concat();
    assert_eq!(longest.len(), 49_152);
    let mut job = vec![0; 16_384];
    assert_eq!(binarize(&longest, &mut job), Ok(4_096));
    assert_eq!(job[16_380..], longest[49_140..49_144]);
    assert_eq!(refused(&longest, 16_383), (13, 4_096));
    let longer = [&start[..], &transitions(4_095)].concat();
    assert_eq!(longer.len(), 49_164);
    assert_eq!(refused(&longer, 16_384), (2, 49_164));
    // 2 comes before 1 and before every record.
    assert_eq!(refused(&[0; 49_153], 0), (2, 49_153));
    assert_eq!(refused(&[0; 49_151], 0), (1, 4_095));
    assert_eq!(refused(&[0; 49_152], 0), (3, 0));
}

#[test]
fn the_longest_job_written() {
    let start = [padded(b"S\0"), padded(b"I\0")].concat();
    // The last record is written as two: 4,095 records make 4,096 of them, 4,096 one too many.
    let of = |count: usize| [&start[..], &transitions(count), &rule(0, &[0, 0, 0])].concat();
    let mut job = vec![0; 16_384];
    assert_eq!(binarize(&of(4_092), &mut job), Ok(4_096));
    assert_eq!(job[16_376..], *b"P\0\0\x01P\x01\0\0");
    assert_eq!(refused(&of(4_093), 16_384), (2, 16_388));
    // 2 comes before 13, and 8 before 2.
    assert_eq!(refused(&of(4_093), 0), (2, 16_388));
    assert_eq!(refused(&of(4_093)[12..], 0), (8, 4_095));
    assert_eq!(refused(&[&transitions(4_094)[..], &rule(0, &[0, 0, 0]), &padded(b"S\0")].concat(), 0), (9, 4_096));
}

#[test]
fn a_buffer_one_byte_short() {
    let long = long("S 0\nI 0\nL 0 32 0 0\n");
    for (length, expected) in [(15, Err(())), (16, Ok(4)), (0, Err(())), (17, Ok(4))] {
        let mut job = vec![3; length];
        assert_eq!(binarize(&long, &mut job).map_err(|_| ()), expected);
        if expected.is_err() {
            assert_eq!(refused(&long, length), (13, 4));
            assert_eq!(job, vec![3; length]);
        }
    }
}
