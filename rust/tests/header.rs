//! The crate says what the C header says: its version, its limits, and each refusal in words.
use std::collections::HashMap;

fn header() -> String {
    std::fs::read_to_string(concat!(env!("CARGO_MANIFEST_DIR"), "/../include/ropeclover.h")).unwrap()
}

/// The numbers of the refusals by their names: lines `NAME = N,` of the enumeration.
fn numbers(header: &str) -> HashMap<&str, u64> {
    let start = header.find("enum ropeclover_refusal {").unwrap();
    let end = start + header[start..].find("};").unwrap();
    let lines = header[start..end].lines().filter_map(|line| line.trim().split_once(" = "));
    lines.map(|(name, rest)| (name, rest.split([',', ' ']).next().unwrap().parse().unwrap())).collect()
}

#[test]
fn versions_agree() {
    let header = header();
    let line = header.lines().find_map(|line| line.strip_prefix("#define ROPECLOVER_VERSION \"")).unwrap();
    assert_eq!(line.trim_end_matches('"'), ropeclover::VERSION);
}

#[test]
fn limits_agree() {
    let header = header();
    for (name, value) in [
        ("TABLE_BYTES", ropeclover::TABLE_BYTES),
        ("BIT_TABLE_BYTES", ropeclover::BIT_TABLE_BYTES),
        ("HALF_BYTES", ropeclover::HALF_BYTES),
        ("REASONS", ropeclover::REASONS),
        ("CODES", ropeclover::CODES),
        ("JOB_BYTES", ropeclover::JOB_BYTES),
        ("RECORDS", ropeclover::RECORDS),
        ("RULES", ropeclover::RULES),
        ("VARIABLES", ropeclover::VARIABLES),
        ("SYMBOLS", ropeclover::SYMBOLS),
        ("STATES", ropeclover::STATES),
        ("FORM_SYMBOLS", ropeclover::FORM_SYMBOLS),
        ("LISTING_RECORD_BYTES", ropeclover::LISTING_RECORD_BYTES),
        ("LISTING_BYTES", ropeclover::LISTING_BYTES),
        ("LONG_JOB_BYTES", ropeclover::LONG_JOB_BYTES),
        ("LONG_RECORD_BYTES", ropeclover::LONG_RECORD_BYTES),
        ("BODY_SYMBOLS", ropeclover::BODY_SYMBOLS),
        ("COPY_BYTES", ropeclover::COPY_BYTES),
        ("ABNF_BYTES", ropeclover::ABNF_BYTES),
        ("MAP_BYTES", ropeclover::MAP_BYTES),
    ] {
        assert!(header.contains(&format!("#define ROPECLOVER_{name} {value}\n")), "{name}");
    }
}

#[test]
fn refusals_have_the_same_words() {
    let header = header();
    let numbers = numbers(&header);
    let cases = header.lines().filter_map(|line| line.trim().strip_prefix("case ")?.split_once(": return \""));
    let mut found = 0;
    for (name, text) in cases {
        assert_eq!(ropeclover::refusal_text(numbers[name]), text.trim_end_matches("\";"), "{name}");
        found += 1;
    }
    assert_eq!(found, 19);
    assert_eq!(ropeclover::refusal_text(19), "an unknown refusal");
}
