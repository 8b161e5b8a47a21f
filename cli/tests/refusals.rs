//! Refusals and malformed text: the line on standard output, the quoted lines on standard error, the status.
mod support;

use support::{file, job, run, RADIO_JOB, REPORT};

/// Runs report on a text in a file and gives the message with the file's name as FILE.
fn refuse(name: &str, text: &str, line: &str, parts: &[&str]) {
    let path = file(&format!("refuse-{name}"), "job.txt", text.as_bytes());
    let mut ran = run(&["report", &path], b"");
    ran.stderr = ran.stderr.replace(&path, "FILE");
    ran.refuses(line, parts);
}

#[test]
fn a_kind_is_quoted() {
    refuse(
        "kind",
        "S 0\nX 1 2\n",
        "refused 3 at 1\n",
        &[
            "error[refused 3 at 1]: unknown kind of record\n  --> FILE:2:1\n",
            "2 | X 1 2\n  | ^ the kinds are E, U, P, T, I, F, S and L\n",
        ],
    );
}

/// In a job the kinds are those of a job.
#[test]
fn a_kind_of_a_job() {
    run(&["report"], b"S\0\0\0L\0\0\0X\0\0\0")
        .refuses("refused 3 at 1\n", &["1 | L 0 0 0\n", "^ the kinds are E, U, P, T, I, F and S\n"]);
}

/// The nearest name of the field's class is suggested, and none where none is near.
#[test]
fn a_name_is_suggested() {
    let names = "name 0 command\nname 33 \"T\"\nstate 0 begin\n";
    for (line, word) in [
        ("S comand", "command"),
        ("U 0 comand", "command"),
        ("T bgin \"T\" 1", "begin"),
        ("form comand", "command"),
        ("nmae 3 tone", "name"),
    ] {
        run(&["report"], format!("{names}{line}\n").as_bytes())
            .refuses("", &[&format!("4 | {line}\n"), &format!("= did you mean '{word}'?\n")]);
    }
    for line in ["S xyz", "I comand", "form xyz"] {
        let ran = run(&["report"], format!("{names}{line}\n").as_bytes());
        assert!(ran.status == Some(1) && !ran.stderr.contains("did you mean"), "{}", ran.stderr);
    }
}

/// A name that no record uses is told, and nothing else changes; its number in a record is a use of it.
#[test]
fn unused_names_are_told() {
    let text = "name 0 go\nname 1 old\nname 40 \"x\"\nstate 0 begin\nstate 7 end\nS 0\nE go\nI 0\nF 0\n";
    let told = "ropeclover: <stdin>: no record uses the names old, \"x\", end\n";
    for words in [&["report"][..], &["codes"], &["explain"], &["nightly"], &["assemble"], &["binarize"], &["clean"]] {
        let ran = run(words, text.as_bytes());
        assert!(ran.stderr.starts_with(told) && ran.status == Some(0), "{words:?}: {}", ran.stderr);
        let without = text.replace("name 1 old\nname 40 \"x\"\n", "").replace("state 7 end\n", "");
        let plain = run(words, without.as_bytes());
        assert_eq!((ran.bytes, ran.stderr), (plain.bytes, format!("{told}{}", plain.stderr)), "{words:?}");
    }
    run(&["assemble"], b"name 1 old\nS 0\n").says(&["no record uses the name old\n"]);
}

#[test]
fn a_field_is_quoted_with_its_class() {
    refuse(
        "symbol",
        "S 0\n\n# given\nT 0 64 0 # too large\n",
        "refused 4 at 1\n",
        &["--> FILE:4:5\n", "4 | T 0 64 0 # too large\n  |     ^^ field 2 of a T record is a symbol, 0 to 63\n"],
    );
    refuse(
        "variable",
        "P 32 1 1\n",
        "refused 4 at 0\n",
        &["1 | P 32 1 1\n  |   ^^ field 1 of a P record is a variable, 0 to 31"],
    );
    refuse(
        "pair",
        "name 32 \"M\"\nP 0 \"M\" 63\nP 0 64 \"M\"\n",
        "refused 4 at 1\n",
        &["3 | P 0 64 \"M\"\n  |     ^^ field 2 of a P record is a symbol, 0 to 63\n"],
    );
    refuse(
        "pair-second",
        "P 0 32 255\n",
        "refused 4 at 0\n",
        &["1 | P 0 32 255\n  |        ^^^ field 3 of a P record is a symbol, 0 to 63\n"],
    );
    refuse("state", "I 32\n", "refused 4 at 0\n", &["1 | I 32\n  |   ^^ field 1 of an I record is a state, 0 to 31"]);
    refuse(
        "unused",
        "name 1 a\nU a a 7\n",
        "refused 4 at 0\n",
        &["2 | U a a 7\n  |       ^ field 3 of a U record is unused, so 0"],
    );
}

#[test]
fn the_earlier_record_is_quoted_too() {
    refuse(
        "repeated",
        "name 0 a\nS 0\nU a 32\nI 0\n\nU 0 32 0\n",
        "refused 5 at 3\n",
        &[
            "a record is repeated\n  --> FILE:6:1\n",
            "3 | U a 32\n  | ------ the same record\n",
            "6 | U 0 32 0\n  | ^^^^^^^^ repeated here\n",
        ],
    );
    refuse(
        "second",
        "S 0\nI 1\nS 2\n",
        "refused 6 at 2\n",
        &[
            "there is one start symbol, so one S record\n",
            "1 | S 0\n  | --- the first\n",
            "3 | S 2\n  | ^^^ the second\n",
        ],
    );
    refuse(
        "initial",
        "S 0\nI 1\nI 2\n",
        "refused 6 at 2\n",
        &["there is one initial state, so one I record", "2 | I 1\n", "3 | I 2\n"],
    );
}

#[test]
fn limits_are_quoted() {
    let rules: String = (0..257).map(|n| format!("P {} {} 0\n", n / 32, n % 32)).collect();
    refuse(
        "rules",
        &rules,
        "refused 7 at 256\n",
        &["a job has at most 256 rules", "257 | P 8 0 0\n", "^^^^^^^ the 257th rule"],
    );
    let mut records = String::from("S 0\nI 0\n");
    (0..4095).for_each(|n| records.push_str(&format!("T {} {} {}\n", n / 1024, n / 32 % 32, n % 32)));
    refuse(
        "records",
        &records,
        "refused 2 at 16388\n",
        &["the text has 4097 records; a job has at most 4096", "4097 | T 3 31 30\n"],
    );
}

#[test]
fn what_is_missing_is_named() {
    refuse(
        "start",
        "I 0\n",
        "refused 8 at 1\n",
        &["FILE: no S record says which variable is the start symbol", "a record 'S 0'"],
    );
    refuse(
        "initial-missing",
        "S 0\n",
        "refused 9 at 1\n",
        &["FILE: no I record says which state is the initial one", "a record 'I 0'"],
    );
    refuse("empty", "", "refused 8 at 0\n", &["no S record"]);
}

#[test]
fn a_job_shows_the_record_and_its_bytes() {
    let mut job = RADIO_JOB.to_vec();
    job.extend([b'P', 1, 200, 3]);
    run(&["codes"], &job).refuses(
        "refused 4 at 23\n",
        &[
            "--> <stdin>:23:5\n",
            "23 | P 1 200 3\n   |     ^^^ field 2 of a P record is a symbol, 0 to 63\n",
            "record 23, counted from 0: bytes 50 01 c8 03 at offset 92\n",
        ],
    );
    job.truncate(92);
    job.extend([b'S', 0, 0, 0]);
    run(&["report"], &job)
        .refuses("refused 5 at 23\n", &[" 0 | S 0 0 0\n", "the same record\n", "23 | S 0 0 0\n", "bytes 53 00 00 00"]);
    run(&["report"], b"\x07\0\0\0").refuses(
        "refused 3 at 0\n",
        &["  --> <stdin>:0:1\n  |\n0 | 0x07 0 0 0\n  | ^^^^ the kinds", "bytes 07 00 00 00"],
    );
    run(&["report"], &RADIO_JOB[..39]).refuses("refused 1 at 9\n", &["left over after 9 whole records\n"]);
    run(&["report"], &RADIO_JOB[..7]).refuses("refused 1 at 1\n", &["left over after 1 whole record\n"]);
}

#[test]
fn a_form_is_quoted() {
    run(&["explain", "-", "#0", "#64", "#1"], REPORT.as_bytes())
        .refuses("refused 11 at 1\n", &["1 | 0 64 1\n  |   ^^ a symbol is 0 to 63"]);
    let words: Vec<String> =
        ["explain", "-"].into_iter().map(String::from).chain((0..65).map(|_| "#0".into())).collect();
    run(&words, REPORT.as_bytes()).refuses("refused 12 at 65\n", &["the form has 65 symbols", "^ the 65th symbol"]);
}

#[test]
fn refusals_as_json() {
    let path = file("refuse-json", "job.txt", b"S 0\n\nU 0 99\n");
    let ran = run(&["report", "--format", "json", &path], b"");
    assert_eq!(ran.status, Some(1));
    assert!(ran
        .stdout
        .starts_with(&format!("{{\"refused\":{{\"file\":\"{path}\",\"line\":3,\"message\":\"record 1 has a field")));
    assert!(ran.stdout.ends_with("\"number\":4,\"place\":1}}\n"));
}

#[test]
fn malformed_text_as_json() {
    let ran = run(&["codes", "--format", "json"], b"name 1 memory\nfoo\nname 64 x\nS memry\n");
    ran.refuses(
        concat!(
            "{\"unreadable\":{\"lines\":[",
            "{\"line\":2,\"message\":\"'foo' is no kind of record (one letter), nor 'name', 'state' or 'form'\",\"suggestion\":null},",
            "{\"line\":3,\"message\":\"a symbol is a number from 0 to 63\",\"suggestion\":null},",
            "{\"line\":4,\"message\":\"'memry' is no variable: neither the name of one nor a number from 0 to 31\",\"suggestion\":\"memory\"}",
            "],\"message\":\"<stdin>: 3 lines are malformed\"}}\n"
        ),
        &["<stdin>:2:1", "<stdin>:3:6", "<stdin>:4:3", "did you mean 'memory'?"],
    );
}

/// Two lines that belong together are quoted however far apart they stand, and of what is between them only a single line.
#[test]
fn lines_far_apart() {
    let text = |between: usize| format!("name 0 a\n{}name 0 b\n", "# between\n".repeat(between));
    let first = "name 0 a\n  | -------- first here\n";
    for (between, shown) in [(0, "2 | name 0 b\n"), (1, "2 | # between\n3 | name 0 b\n"), (2, "  .\n4 | name 0 b\n")] {
        run(&["report"], text(between).as_bytes()).refuses("", &[first, shown, "^\n"]);
    }
    let ran = run(&["report"], text(100_000).as_bytes());
    ran.refuses("", &["<stdin>:100002:6\n", "1 | name 0 a\n", "-------- first here\n", "100002 | name 0 b\n"]);
    assert!(!ran.stderr.contains("between"), "{}", ran.stderr);
}

#[test]
fn malformed_lines_are_all_shown() {
    let text = "S 0\nP 0 1 x\nfoo 1\nU 1 2 3 4\nname 0 a\nname 0 b\nname 1 a\nname 64 c\nstate 32 d\nname 1\nname 2 3\nU 0 \"a\n";
    let ran = run(&["report"], text.as_bytes());
    ran.refuses(
        "",
        &[
            "'x' is no symbol: neither the name of one nor a number from 0 to 63\n  --> <stdin>:2:7\n",
            "2 | P 0 1 x\n  |       ^\n",
            "'foo' is no kind of record (one letter), nor 'name', 'state' or 'form'",
            "a U record has 2 fields, a variable and a symbol, not 4\n  --> <stdin>:4:9\n",
            "this number has a name already, from line 5\n",
            "5 | name 0 a\n  | -------- first here\n6 | name 0 b\n  |      ^\n",
            "this name is taken already, in line 5\n",
            "a symbol is a number from 0 to 63\n",
            "a state is a number from 0 to 31\n",
            "a number and a name are due here, not 1 word\n",
            "'3' is no name",
            "this string has no closing quote on its line\n   --> <stdin>:12:5\n",
        ],
    );
    let one = run(&["report", "--format", "json"], b"foo\n").stdout;
    assert!(one.ends_with("\"message\":\"<stdin>: 1 line is malformed\"}}\n"), "{one}");
    run(&["assemble"], "foo\n".repeat(11).as_bytes()).refuses("", &["<stdin>: 1 more line is malformed\n"]);
    let many = "foo\n".repeat(25);
    run(&["assemble"], many.as_bytes()).refuses("", &["<stdin>:10:1", "<stdin>: 15 more lines are malformed"]);
}

/// A forgotten field is no 0: each kind has its number of fields.
#[test]
fn the_number_of_fields_is_checked() {
    let names = "name 0 command\nname 32 \"F\"\n";
    for (line, message) in [
        ("P command \"F\"", "a P record has 3 fields, a variable and two symbols, not 2"),
        ("U command", "a U record has 2 fields, a variable and a symbol, not 1"),
        ("T 0 \"F\"", "a T record has 3 fields, a state, a symbol and a state, not 2"),
        ("E", "an E record has 1 field, a variable, not 0"),
        ("S", "an S record has 1 field, a variable, not 0"),
        ("I", "an I record has 1 field, a state, not 0"),
        ("F", "an F record has 1 field, a state, not 0"),
        ("L", "an L record has 1 to 9 fields, a variable and up to eight symbols, not 0"),
    ] {
        let carets = "^".repeat(line.len());
        run(&["report"], format!("{names}{line} # forgotten\n").as_bytes()).refuses(
            "",
            &[&format!("{message}\n  --> <stdin>:3:1\n"), &format!("3 | {line} # forgotten\n  | {carets}\n")],
        );
    }
    for (line, message) in [
        ("S command \"F\"", "an S record has 1 field, a variable, not 2\n  --> <stdin>:3:11\n"),
        ("F 0 0 0 0", "an F record has 1 field, a state, not 4\n  --> <stdin>:3:9\n"),
        ("P 0 0 0 0", "a P record has 3 fields, a variable and two symbols, not 4\n  --> <stdin>:3:9\n"),
        ("X 0 0 0 0", "a record has at most 3 fields, not 4\n  --> <stdin>:3:9\n"),
    ] {
        run(&["report"], format!("{names}{line}\n").as_bytes()).refuses("", &[message]);
    }
}

/// The zeros behind a job's fields may be written out, all or some; other numbers there are the library's to refuse.
#[test]
fn zeros_behind_the_fields_may_be_written() {
    run(&["assemble"], b"S 0 0 0\nE 3 0\nU 0 32 0\nI 1 0 0\n").prints("S\0\0\0E\u{3}\0\0U\0 \0I\u{1}\0\0");
    run(&["report"], b"S 0 1\n")
        .refuses("refused 4 at 0\n", &["1 | S 0 1\n  |     ^ field 2 of an S record is unused"]);
}

/// A byte order mark and carriage returns, as other systems write them, are no part of a line.
#[test]
fn texts_of_other_systems() {
    run(&["assemble"], "\u{feff}S 1\r\nU 1 32\r\n".as_bytes()).prints("S\u{1}\0\0U\u{1} \0");
    run(&["codes"], "\u{feff}S 0 0 9\r\n".as_bytes())
        .refuses("refused 4 at 0\n", &["--> <stdin>:1:7\n", "1 | S 0 0 9\n  |       ^ field 3"]);
}

#[test]
fn a_name_of_another_class_is_unknown() {
    let text = "name 0 a\nstate 0 q\nS a\nT q a q\nT a a q\nE q\n";
    run(&["report"], text.as_bytes()).refuses(
        "",
        &[
            "'a' is no state: neither the name of one nor a number from 0 to 31",
            "5 | T a a q",
            "'q' is no variable: neither the name of one nor a number from 0 to 31",
        ],
    );
}

#[test]
fn text_for_a_job_and_a_job_for_text() {
    run(&["disassemble"], REPORT.as_bytes()).refuses("", &["<stdin>: this is text already", "disassemble takes a job"]);
    run(&["assemble"], &job(REPORT)).refuses("", &["<stdin>: this is a job already", "assemble takes its text"]);
    run(&["disassemble"], b"S\0\0\0\0\0\0\0").refuses("", &["record 1 has no spelling"]);
    run(&["report"], b"S 0\nU 0 32\nI 0\0\n")
        .refuses("refused 4 at 0\n", &["this looks like text, but byte 14 is zero, as in a job"]);
}
