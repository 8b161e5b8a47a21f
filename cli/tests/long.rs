//! Rules with long bodies: what they are written as, every subcommand on them, and refusals that quote what was read. The expected lines are worked
//! out by hand.
mod support;

use support::{file, job, run, MEMORY_TEXT, REPORT};

/// The rules of MEMORY_TEXT split by hand: 2 to 4 for the tails.
const SPLIT: &str = "S 0 0 0\nP 0 32 2\nP 2 1 3\nP 3 33 4\nP 4 1 1\nU 1 34 0\nI 0 0 0\nF 5 0 0\n\
    T 0 32 1\nT 1 34 2\nT 2 33 3\nT 3 34 4\nT 4 34 5\n";

/// The twelve bytes of a record: those given, then zeros.
fn padded(bytes: &[u8]) -> Vec<u8> {
    let mut record = bytes.to_vec();
    record.resize(12, 0);
    record
}

#[test]
fn a_text_is_assembled_to_a_long_job_and_back() {
    let bytes = job("S 3\nL 3 32 1 33\nL 0\nT 1 2 3\n");
    let expected: [&[u8]; 4] = [b"S\x03", b"L\x03\x03\x20\x01\x21", b"L", b"T\x01\x02\x03"];
    assert_eq!(bytes, expected.map(padded).concat());
    run(&["disassemble"], &bytes).prints("S 3 0 0\nL 3 32 1 33\nL 0\nT 1 2 3\n");
    let eight = "L 1 2 3 4 5 6 7 8 63\n";
    run(&["disassemble"], &job(eight)).prints(eight);
    // Without a line of that kind it is an ordinary job.
    assert_eq!(job("S 3\n"), b"S\x03\0\0");
}

#[test]
fn a_long_job_is_written_as_an_ordinary_one() {
    let expected = job(SPLIT);
    assert_eq!(run(&["binarize"], MEMORY_TEXT.as_bytes()).bytes, expected);
    assert_eq!(run(&["binarize", "-"], &job(MEMORY_TEXT)).bytes, expected);
    let path = file("binarize", "memory.txt", MEMORY_TEXT.as_bytes());
    assert_eq!(run(&["binarize", &path], b"").bytes, expected);
    // As text, by numbers and by the names of the input.
    run(&["binarize", "--text"], &job(MEMORY_TEXT)).prints(SPLIT);
    let named = run(&["binarize", "--text"], MEMORY_TEXT.as_bytes());
    named.prints(
        "name 0 memory\nname 1 digit\nname 2 memory.2\nname 3 memory.3\nname 4 memory.4\n\
        name 32 \"M\"\nname 33 \"T\"\nname 34 \"0-9\"\nstate 0 begin\nstate 5 end\n\
        S memory 0 0\nP memory \"M\" memory.2\nP memory.2 digit memory.3\nP memory.3 \"T\" memory.4\n\
        P memory.4 digit digit\nU digit \"0-9\" 0\n\
        I begin 0 0\nF end 0 0\nT begin \"M\" 1\nT 1 \"0-9\" 2\nT 2 \"T\" 3\nT 3 \"0-9\" 4\nT 4 \"0-9\" end\n\
        form \"M\" digit \"T88\"\n",
    );
    assert_eq!(job(&named.stdout), expected);
}

/// A text without a line of kind L is written as it stands; bytes are always those of a long job.
#[test]
fn binarize_takes_any_text_and_no_ordinary_job() {
    assert_eq!(run(&["binarize"], REPORT.as_bytes()).bytes, job(REPORT));
    run(&["binarize"], b"I 0\n").refuses("refused 8 at 1\n", &["<stdin>: no S record"]);
    run(&["binarize"], b"").refuses("refused 8 at 0\n", &["no S record"]);
    run(&["binarize"], b"S\0\0\0I\0\0\0F\0\0\0").refuses("refused 15 at 0\n", &["a padding byte is not zero"]);
    run(&["binarize"], &job(REPORT)).refuses("refused 1 at 3\n", &["left over after 3 whole records"]);
    run(&["report"], b"S\0\0\0I\0\0\0F\0\0\0")
        .prints("states 1\nexamined 0\njoins 0\nstart no\nempty yes\ngrowing no\n");
}

/// By hand: the five given transitions, three of digit, and one for each P record, each after the two that meet in it.
const LISTING: &str = "accepted yes\nform memory\nsequence begin end\nrecords 12\n\
    begin \"M\" 1 given\n1 \"0-9\" 2 given\n1 digit 2 by digit -> \"0-9\"\n\
    2 \"T\" 3 given\n3 \"0-9\" 4 given\n3 digit 4 by digit -> \"0-9\"\n\
    4 \"0-9\" end given\n4 digit end by digit -> \"0-9\"\n3 memory.4 end by memory.4 -> digit digit at 4\n\
    2 memory.3 end by memory.3 -> \"T\" memory.4 at 3\n1 memory.2 end by memory.2 -> digit memory.3 at 2\n\
    begin memory end by memory -> \"M\" memory.2 at 1\n";

#[test]
fn every_subcommand_takes_long_bodies() {
    let (text, bytes) = (MEMORY_TEXT.as_bytes(), job(MEMORY_TEXT));
    for input in [text, &bytes] {
        run(&["report"], input).prints("states 6\nexamined 12\njoins 4\nstart yes\nempty no\ngrowing no\n");
        let told = "alike: states 6, examined 12, joins 4, start yes, empty no, growing no, useless symbols 0\n";
        let nightly = run(&["nightly"], input);
        assert!(nightly.stdout.starts_with(told) && nightly.status == Some(0), "{}", nightly.stdout);
    }
    run(&["codes"], text).prints(
        "useful: 8\n  0 memory\n  1 digit\n  2 memory.2\n  3 memory.3\n  4 memory.4\n  32 \"M\"\n  33 \"T\"\n  34 \"0-9\"\n\
        derives no string: 0\nnever reached: 0\n",
    );
    run(&["explain"], text).prints(LISTING);
    run(&["explain", "-", "memory"], text).prints(LISTING);
    let numbers = run(&["explain", "-", "#32", "#2"], &bytes);
    assert!(numbers.stdout.starts_with("accepted yes\nform 32 2\nsequence 0 1 5\nrecords 11\n0 32 1 given\n"));
    let json = run(&["explain", "--format", "json"], text).stdout;
    assert!(json.contains("{\"body\":[32,2],\"from\":0,\"middle\":1,\"reason\":\"pair\",\"symbol\":0,\"to\":5}"));
    assert!(json.contains("\"2\":\"memory.2\",\"3\":\"memory.3\""), "{json}");
    let codes = run(&["codes", "--format", "json"], text).stdout;
    assert!(codes.contains("{\"code\":1,\"kind\":\"useful\",\"name\":\"memory.3\",\"symbol\":3}"), "{codes}");
    let graph = run(&["explain", "--dot", "-", "memory.3"], text).stdout;
    assert!(graph.contains("label=\"form memory.3\\nnot accepted\""), "{graph}");
    let tree = run(&["explain", "--tree"], text).stdout;
    assert!(tree.contains("\n  1 memory.2 end by memory.2 -> digit memory.3 at 2\n"), "{tree}");
}

/// The second long rule of a head has its number in its tails' names; a head in quotes keeps them; a name that is taken is given to no tail.
#[test]
fn tails_of_several_rules() {
    let text =
        "name 0 go\nname 1 \"it\"\nname 2 go.3\nS go\nL go 32 33 34 35\nL go go.3 32 \"it\"\nL \"it\" 36 37 38\nI 0\n";
    // 3 and 4 are the tails of the first rule from its second and third symbol on, 5 and 6 those of the others.
    let rules = "P go 32 go.2\nP go.2 33 4\nP 4 34 35\nP go go.3 go.2.2\nP go.2.2 32 \"it\"\nP \"it\" 36 \"it.2\"\nP \"it.2\" 37 38\n";
    let ran = run(&["binarize", "--text"], text.as_bytes());
    ran.prints(&format!(
        "name 0 go\nname 1 \"it\"\nname 2 go.3\nname 3 go.2\nname 5 go.2.2\nname 6 \"it.2\"\nS go 0 0\n{rules}I 0 0 0\n"
    ));
    assert_eq!(job(&ran.stdout), run(&["binarize"], text.as_bytes()).bytes);
}

/// Variable 1 is called old, but no record names it, so it is taken for the tail.
#[test]
fn a_variable_that_is_taken_has_no_name() {
    let text = "name 1 old\nname 3 kept\nS 0\nL 0 32 0 0\nI 0\n";
    let codes = run(&["codes"], text.as_bytes());
    assert_eq!(codes.stdout, "useful: 0\nderives no string: 2\n  0\n  1\nnever reached: 1\n  32\n");
    assert_eq!(
        (codes.stderr.as_str(), codes.status),
        ("ropeclover: <stdin>: no record uses the names old, kept\n", Some(0))
    );
    let unknown = run(&["explain", "-", "old"], text.as_bytes());
    assert_eq!((unknown.status, unknown.stdout.as_str()), (Some(2), ""));
    unknown.says(&["'old' is no symbol"]);
    assert_eq!(run(&["explain", "-", "kept"], text.as_bytes()).stdout, "accepted no\nform kept\nrecords 0\n");
    assert!(run(&["binarize", "--text"], text.as_bytes()).stdout.starts_with("name 3 kept\nS 0 0 0\nP 0 32 1\n"));
}

/// The refusal of a text by binarize, by report, and by codes as an object.
fn refuse(text: &str, line: &str, parts: &[&str]) {
    run(&["binarize"], text.as_bytes()).refuses(line, parts);
    run(&["report"], text.as_bytes()).refuses(line, parts);
    let object = run(&["codes", "--format", "json"], text.as_bytes());
    assert!(object.stdout.starts_with("{\"refused\":{\"file\":\"<stdin>\",\"line\":"), "{}", object.stdout);
    object.says(parts);
}

#[test]
fn refusals_of_the_first_walk_quote_the_line() {
    refuse(
        "S 0\n\nL 0 1 64 # too large\nX\n",
        "refused 4 at 1\n",
        &[
            "a field is outside its class\n  --> <stdin>:3:7\n",
            "3 | L 0 1 64 # too large\n  |       ^^ field 3 of an L record is a symbol, 0 to 63\n",
        ],
    );
    refuse("S 0\nL 40\n", "refused 4 at 1\n", &["2 | L 40\n  |   ^^ field 1 of an L record is a variable, 0 to 31\n"]);
    refuse("L 0\nT 0 0 32\n", "refused 4 at 1\n", &["2 | T 0 0 32\n  |       ^^ field 3 of a T record is a state"]);
    refuse("L 0\nX 1\n", "refused 3 at 1\n", &["2 | X 1\n  | ^ the kinds are E, U, P, T, I, F, S and L\n"]);
    refuse(
        "S 0\nL 0\n\nS 0\n",
        "refused 6 at 2\n",
        &["one S record\n", "1 | S 0\n  | --- the first\n", "4 | S 0\n  | ^^^ the second\n"],
    );
}

#[test]
fn refusals_of_the_second_walk_quote_the_line() {
    let named: String = (0..32).map(|variable| format!("E {variable}\n")).collect();
    refuse(
        &format!("S 0\nI 0\n{named}L 0 1 32 2 # one is needed\n"),
        "refused 14 at 34\n",
        &[
            "error[refused 14 at 34]: too few variables are free\n",
            "<stdin>:35:1\n",
            "35 | L 0 1 32 2 # one is needed\n   | ^^^^^^^^^^ this takes more variables than are left\n",
            "free are the variables of 0 to 31 that no record names; a body of n symbols, n over 2, takes n - 2 of them",
        ],
    );
    refuse(
        "# rules\nname 0 go\nU go 32\n\nL 0 32\n",
        "refused 5 at 1\n",
        &[
            "a record is written that stands already\n",
            "3 | U go 32\n  | ------- the same\n",
            "5 | L 0 32\n  | ^^^^^^ written again here\n",
        ],
    );
    refuse(
        "L 0 1\nF 2\nF 2\n",
        "refused 5 at 2\n",
        &["2 | F 2\n  | --- the same\n3 | F 2\n  | ^^^ written again here"],
    );
    let rules: String = (0..255).map(|n| format!("P {} {} {}\n", n / 64, n / 8 % 8, n % 8)).collect();
    refuse(
        &format!("{rules}L 7 0 1 2\n"),
        "refused 7 at 255\n",
        &[
            "a job has at most 256 rules\n",
            "256 | L 7 0 1 2\n    | ^^^^^^^^^ the 257th rule is written for this record\n",
        ],
    );
}

#[test]
fn what_is_missing_or_too_much_is_told() {
    refuse("L 0\n", "refused 8 at 1\n", &["<stdin>: no S record says", "a record 'S 0'"]);
    refuse("L 0\nS 0\n", "refused 9 at 2\n", &["<stdin>: no I record says", "a record 'I 0'"]);
    let given: String = (0..4_093).map(|n| format!("T {} {} {}\n", n / 1024, 32 + n / 32 % 32, n % 32)).collect();
    // 4,096 records are read, and the rule is written as two of them.
    refuse(
        &format!("S 0\nI 0\n{given}L 0 0 0 0\n"),
        "refused 2 at 16388\n",
        &["<stdin>: the job written has 4097 records; a job has at most 4096\n"],
    );
    refuse(
        &format!("S 0\nI 0\n{given}L 0 0 0 0\nF 0\n"),
        "refused 2 at 49164\n",
        &["the text has 4097 records; a job has at most 4096\n", "4097 | F 0\n     | ^^^ the 4097th record\n"],
    );
}

#[test]
fn refusals_of_bytes_show_the_record() {
    let long = |record: &[u8]| [padded(b"S"), padded(b"L\0\x02\x20\x21"), padded(record)].concat();
    run(&["report"], &long(b"L\0\x09\x01\x02\x03")).refuses(
        "refused 15 at 2\n",
        &[
            "a length is over 8, or a padding byte is not zero\n",
            "--> <stdin>:2:1\n",
            "2 | L 0 1 2 3 0 0 0 0 0\n  | ^^^^^^^^^^^^^^^^^^^ a length is 0 to 8",
            "record 2, counted from 0: bytes 4c 00 09 01 02 03 00 00 00 00 00 00 at offset 24\n",
        ],
    );
    run(&["codes"], &long(b"L\x01\x03\x20\x40")).refuses(
        "refused 4 at 2\n",
        &["2 | L 1 32 64 0\n  |        ^^ field 3 of an L record is a symbol, 0 to 63\n", "4c 01 03 20 40 00"],
    );
    run(&["nightly"], &long(b"U\0\x20\0\0\0\0\0\0\0\0\x01"))
        .refuses("refused 15 at 2\n", &["2 | U 0 32 0\n", "bytes 55 00 20 00 00 00 00 00 00 00 00 01"]);
    run(&["explain"], &long(b"L\0\x02\x20\x21"))
        .refuses("refused 5 at 2\n", &["1 | L 0 32 33\n", "the same\n2 | L 0 32 33\n", "at offset 24\n"]);
    run(&["report"], &long(b"")[..30]).refuses("refused 1 at 2\n", &["not a multiple of 12", "after 2 whole records"]);
    run(&["disassemble"], &long(b"L\0\x09")).refuses("", &["record 2 has no spelling", "not padded by zeros"]);
    run(&["disassemble"], &long(b"")[..30]).refuses("", &["record 2 has no spelling"]);
}

#[test]
fn a_body_of_nine_symbols_is_malformed() {
    run(&["assemble"], b"S 0\nL 0 1 2 3 4 5 6 7 8 9 10\n").refuses(
        "",
        &["a body has at most eight symbols, not 10\n  --> <stdin>:2:21\n", "2 | L 0 1 2 3 4 5 6 7 8 9 10\n"],
    );
    run(&["report"], b"name 0 a\nstate 1 q\nL a a q\n").refuses(
        "",
        &["'q' is no symbol: neither the name of one nor a number from 0 to 63\n", "3 | L a a q\n  |       ^\n"],
    );
}

/// As long as a long job may be, which is longer than an ordinary one: 4,094 transitions of two states by terminals, on which no rule acts.
#[test]
fn the_longest_long_job_is_read_whole() {
    let mut long = [padded(b"S"), padded(b"I")].concat();
    long.extend(
        (0..4_094usize).flat_map(|n| padded(&[b'T', (n / 1024) as u8, 32 + (n / 32 % 32) as u8, (n % 32) as u8])),
    );
    assert_eq!(long.len(), 49_152);
    run(&["report"], &long).prints("states 32\nexamined 4094\njoins 0\nstart no\nempty yes\ngrowing no\n");
    long.extend(padded(b"F"));
    run(&["report"], &long).refuses("refused 2 at 49153\n", &["the long job has more than 49152 bytes, 4096 records"]);
}
