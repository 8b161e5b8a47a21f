//! Answers, on texts and jobs, with names. The expected lines are worked out by hand.
mod support;

use support::{file, job, run, RADIO_JOB, RADIO_TEXT, REPORT};

const RADIO_REPORT: &str = "states 6\nexamined 20\njoins 5\nstart yes\nempty no\ngrowing yes\n";

#[test]
fn a_file_is_a_text_or_a_job_and_none_is_standard_input() {
    let text = file("sorts", "radio.txt", RADIO_TEXT.as_bytes());
    run(&["report", &text], b"").prints(RADIO_REPORT);
    let job = file("sorts", "radio.job", RADIO_JOB);
    run(&["report", &job], b"").prints(RADIO_REPORT);
    run(&["report", "-"], RADIO_TEXT.as_bytes()).prints(RADIO_REPORT);
    run(&["report"], RADIO_JOB).prints(RADIO_REPORT);
}

#[test]
fn the_example_job_is_its_text() {
    assert_eq!(run(&["assemble"], RADIO_TEXT.as_bytes()).bytes, RADIO_JOB);
    let text = run(&["disassemble"], RADIO_JOB);
    assert!(text.stdout.starts_with("S 0 0 0\nU 0 1 0\n"));
    assert_eq!(run(&["assemble"], text.stdout.as_bytes()).bytes, RADIO_JOB);
}

#[test]
fn the_report_of_the_specification() {
    run(&["report"], REPORT.as_bytes()).prints("states 3\nexamined 11\njoins 8\nstart yes\nempty no\ngrowing yes\n");
    run(&["report", "--format", "json"], REPORT.as_bytes())
        .prints("{\"empty\":false,\"examined\":11,\"growing\":true,\"joins\":8,\"start\":true,\"states\":3}\n");
}

/// Each answer under the name of its file; what fails does not keep the others from being answered.
#[test]
fn several_files() {
    let (radio, report) =
        (file("two-radio", "radio.txt", RADIO_TEXT.as_bytes()), file("two-report", "report.txt", REPORT.as_bytes()));
    let refused = file("two-refused", "refused.txt", b"S 0\n");
    let specified = "states 3\nexamined 11\njoins 8\nstart yes\nempty no\ngrowing yes\n";
    run(&["report", &radio, &report], b"").prints(&format!("{radio}:\n{RADIO_REPORT}{report}:\n{specified}"));
    run(&["report", &report, "-"], RADIO_JOB).prints(&format!("{report}:\n{specified}<stdin>:\n{RADIO_REPORT}"));
    let ran = run(&["report", &refused, "/no/such/file", &report], b"");
    assert_eq!((ran.stdout, ran.status), (format!("{refused}:\nrefused 9 at 1\n{report}:\n{specified}"), Some(2)));
    let malformed = file("two-malformed", "malformed.txt", b"S\n");
    let ran = run(&["codes", &report, &malformed], b"");
    let codes = "useful: 4\n  0\n  1\n  32\n  33\nderives no string: 0\nnever reached: 0\n";
    assert_eq!((ran.stdout, ran.status), (format!("{report}:\n{codes}"), Some(1)));
    let numbers = run(&["codes", "--numbers", &report, &radio], b"").stdout;
    assert_eq!(numbers.lines().count(), 2 * 65);
    let ran = run(&["report", "--format", "json", &report, &refused], b"");
    let object = format!("{{\"empty\":false,\"examined\":11,\"file\":\"{report}\",\"growing\":true,");
    assert!(
        ran.stdout.starts_with(&object) && ran.stdout.lines().count() == 2 && ran.status == Some(1),
        "{}",
        ran.stdout
    );
    let codes = run(&["codes", "--format", "json", &report, &radio], b"").stdout;
    assert!(codes.starts_with(&format!("{{\"file\":\"{report}\",\"symbols\":[")), "{codes}");
}

/// S → S S with S → ε says the empty string alone; with S → a besides, one string of each length.
#[test]
fn what_vanishes_does_not_grow() {
    let text = "name 0 S\nS S\nE S\nP S S S\nI 0\nF 0\n";
    for (more, growing) in [("", "no"), ("name 32 \"a\"\nU S \"a\"\n", "yes")] {
        let told = format!("states 1\nexamined 1\njoins 1\nstart yes\nempty no\ngrowing {growing}\n");
        run(&["report"], format!("{text}{more}").as_bytes()).prints(&told);
    }
}

/// S → A B with a rule for A alone: S and B derive no string, A and a are never reached; and C → c is beside it all.
const KINDS: &str = "name 0 S\nname 1 A\nname 2 B\nname 32 \"a\"\nS S\nP S A B\nU A \"a\"\nU 3 33\nU 4 33\nP 4 4 4\n";

#[test]
fn codes_by_kind() {
    run(&["codes"], KINDS.as_bytes())
        .prints("useful: 0\nderives no string: 2\n  0 S\n  2 B\nnever reached: 5\n  1 A\n  3\n  4\n  32 \"a\"\n  33\n");
    let all = run(&["codes", "--all"], KINDS.as_bytes()).stdout;
    assert!(all.contains("  33\nnot named: 57\n  5\n  6\n") && all.ends_with("  63\n"));
    let numbers = run(&["codes", "--numbers"], KINDS.as_bytes()).stdout;
    let lines: Vec<&str> = numbers.lines().collect();
    assert_eq!(lines.len(), 64);
    assert_eq!((lines[0], lines[1], lines[5], lines[33], lines[63]), ("0 2", "1 3", "5 0", "33 3", "63 0"));
}

#[test]
fn codes_as_json() {
    let json = run(&["codes", "--format", "json"], KINDS.as_bytes()).stdout;
    assert!(json.starts_with("{\"symbols\":[{\"code\":2,\"kind\":\"derives no string\",\"name\":\"S\",\"symbol\":0},"));
    assert!(json.contains("{\"code\":3,\"kind\":\"never reached\",\"name\":\"\\\"a\\\"\",\"symbol\":32}"));
    assert!(json.ends_with("{\"code\":0,\"kind\":\"not named\",\"name\":null,\"symbol\":63}]}\n"));
}

/// go → G stop, stop → T, and the string GT between named states.
const NAMED: &str = "name 0 go\nname 1 letter\nname 2 stop\nname 32 \"G\"\nname 33 \"T\"\nstate 0 idle\nstate 2 done\n\
    S go\nP go letter stop\nU letter \"G\"\nU stop \"T\"\nI idle\nF done\nT idle \"G\" 1\nT 1 \"T\" done\n";

#[test]
fn a_listing_has_names_and_stands_after_its_premises() {
    let listing =
        "accepted yes\nform go\nsequence idle done\nrecords 5\nidle \"G\" 1 given\nidle letter 1 by letter -> \"G\"\n\
        1 \"T\" done given\n1 stop done by stop -> \"T\"\nidle go done by go -> letter stop at 1\n";
    let named = file("listing", "named.txt", NAMED.as_bytes());
    run(&["explain", &named], b"").prints(listing);
    run(&["explain", &named, "go"], b"").prints(listing);
    run(&["explain", &named, "#0"], b"").prints(listing);
    run(&["explain", "-"], NAMED.as_bytes()).prints(listing);
    run(&["explain", &named, "stop"], b"").prints("accepted no\nform stop\nrecords 0\n");
}

/// A quoted string is a name, or its characters; a shell may have taken the quotes.
#[test]
fn forms_of_names_and_strings() {
    let two =
        "accepted yes\nform \"G\" \"T\"\nsequence idle 1 done\nrecords 2\nidle \"G\" 1 given\n1 \"T\" done given\n";
    for words in [&["\"G\"", "\"T\""][..], &["\"GT\""], &["G", "T"], &["\"G\" #33"], &["#32", "#33"]] {
        run(&[&["explain", "-"], words].concat(), NAMED.as_bytes()).prints(two);
    }
    // A form has no comments.
    let hash = "name 32 \"#\"\nS 0\nI 0\nF 1\nT 0 \"#\" 1\n";
    for word in ["#", "\"#\""] {
        run(&["explain", "-", word], hash.as_bytes())
            .prints("accepted yes\nform \"#\"\nsequence 0 1\nrecords 1\n0 \"#\" 1 given\n");
    }
    run(&["explain", "-", "\"\""], NAMED.as_bytes()).prints("accepted no\nform \"\"\nrecords 0\n");
    run(&["explain", "-", ""], b"S 0\nI 0\nF 0\n").prints("accepted yes\nform \"\"\nsequence 0\nrecords 0\n");
}

/// The recorded command typed character by character: "0-9" holds 5 and 8. A name of one's own comes before a range that holds it.
#[test]
fn characters_come_before_numbers() {
    let radio = file("characters", "radio.txt", RADIO_TEXT.as_bytes());
    let head = "accepted yes\nform \"M\" \"0-9\" \"T\" \"0-9\" \"0-9\"\nsequence begin 1 2 3 4 end\n";
    for words in [&["M", "5", "T", "8", "8"][..], &["\"M5T88\""], &["M", "\"0-9\"", "T", "\"88\""]] {
        let ran = run(&[&["explain", &radio], words].concat(), b"");
        assert!(ran.stdout.starts_with(head) && ran.stderr.is_empty(), "{words:?}: {}{}", ran.stdout, ran.stderr);
    }
    let own = "name 32 \"0-9\"\nname 33 \"5\"\nS 0\nI 0\nF 1\nT 0 32 1\nT 0 33 1\n";
    run(&["explain", "-", "5"], own.as_bytes())
        .prints("accepted yes\nform \"5\"\nsequence 0 1\nrecords 1\n0 \"5\" 1 given\n");
    let unknown = run(&["explain", &radio, "\"M5X\""], b"");
    assert_eq!((unknown.status, unknown.stdout.as_str()), (Some(2), ""));
    unknown.says(&["error: 'X' is no symbol: no character is named so, and no range holds it\n"]);
    // Several characters without quotes are a word.
    run(&["explain", &radio, "M", "5T88"], b"")
        .says(&["'5T88' is no symbol: neither a name nor a number from 0 to 63"]);
}

/// A number without its sign is a symbol where it is no character, and that is said.
#[test]
fn numbers_are_symbols_by_their_sign() {
    let radio = file("numbers", "radio.txt", RADIO_TEXT.as_bytes());
    let memory = run(&["explain", &radio, "#3"], b"");
    assert!(memory.stdout.starts_with("accepted yes\nform memory\n") && memory.stderr.is_empty());
    let bare = run(&["explain", &radio, "34", "10"], b"");
    assert!(bare.stdout.starts_with("accepted yes\nform \"M\" stored-setting\n"));
    assert_eq!(
        bare.stderr,
        "ropeclover: 10 is read as symbol 10, as no character is named so; write #10\n\
        ropeclover: 34 is read as symbol 34, as no character is named so; write #34\n"
    );
    run(&["explain", &radio, "#64"], b"").refuses("refused 11 at 0\n", &["1 | 64\n", "a symbol is 0 to 63"]);
    assert_eq!(run(&["explain", &radio, "#256"], b"").status, Some(2));
}

#[test]
fn an_explanation_as_json() {
    run(&["explain", "--format", "json", "-", "stop"], NAMED.as_bytes()).prints(concat!(
        "{\"accepted\":false,\"form\":[2],\"records\":[],\"sequence\":[],\"states\":{\"0\":\"idle\",\"2\":\"done\"},",
        "\"symbols\":{\"0\":\"go\",\"1\":\"letter\",\"2\":\"stop\",\"32\":\"\\\"G\\\"\",\"33\":\"\\\"T\\\"\"}}\n"
    ));
    let json = run(&["explain", "--format", "json"], &job(NAMED)).stdout;
    assert!(json.starts_with("{\"accepted\":true,\"form\":[0],\"records\":[{"));
    assert!(json.contains("[{\"body\":null,\"from\":0,\"middle\":null,\"reason\":\"given\",\"symbol\":32,\"to\":1},"));
    assert!(json.contains("{\"body\":[32],\"from\":0,\"middle\":null,\"reason\":\"unit\",\"symbol\":1,\"to\":1}"));
    assert!(json.contains("{\"body\":[1,2],\"from\":0,\"middle\":1,\"reason\":\"pair\",\"symbol\":0,\"to\":2}"));
    assert!(json.ends_with("\"sequence\":[0,2],\"states\":{},\"symbols\":{}}\n"));
    let empty = run(&["explain", "--format", "json", "-"], b"S 0\nE 0\nI 0\nF 0\n").stdout;
    assert!(empty.contains("{\"body\":[],\"from\":0,\"middle\":null,\"reason\":\"empty\",\"symbol\":0,\"to\":0}"));
}

/// A memory command is M and a digit, with the letter in the pair itself, and one is recorded. By hand: two given transitions, digit from 1 to end, and
/// memory by the one meeting of the two at 1.
const LETTER: &str = "name 0 memory\nname 1 digit\nname 32 \"M\"\nname 33 \"0-9\"\nstate 0 begin\nstate 2 end\n\
    S memory\nP memory \"M\" digit\nU digit \"0-9\"\nI begin\nF end\nT begin \"M\" 1\nT 1 \"0-9\" end\n";

#[test]
fn terminals_in_pairs() {
    let text = LETTER.as_bytes();
    let bytes = job(LETTER);
    assert_eq!(bytes[..8], [b'S', 0, 0, 0, b'P', 0, 32, 1]);
    run(&["disassemble"], &bytes).prints("S 0 0 0\nP 0 32 1\nU 1 33 0\nI 0 0 0\nF 2 0 0\nT 0 32 1\nT 1 33 2\n");
    for input in [text, &bytes] {
        run(&["report"], input).prints("states 3\nexamined 4\njoins 1\nstart yes\nempty no\ngrowing no\n");
        let told = "alike: states 3, examined 4, joins 1, start yes, empty no, growing no, useless symbols 0\n";
        run(&["nightly"], input).prints(told);
    }
    run(&["codes"], text)
        .prints("useful: 4\n  0 memory\n  1 digit\n  32 \"M\"\n  33 \"0-9\"\nderives no string: 0\nnever reached: 0\n");
    let head = "accepted yes\nform memory\nsequence begin end\n";
    run(&["explain"], text).prints(&format!(
        "{head}records 4\nbegin \"M\" 1 given\n1 \"0-9\" end given\n1 digit end by digit -> \"0-9\"\n\
        begin memory end by memory -> \"M\" digit at 1\n"
    ));
    run(&["explain", "--tree"], text).prints(&format!(
        "{head}begin memory end by memory -> \"M\" digit at 1\n  begin \"M\" 1 given\n\
        \x20 1 digit end by digit -> \"0-9\"\n    1 \"0-9\" end given\n"
    ));
    let json = run(&["explain", "--format", "json"], text).stdout;
    assert!(json.contains("{\"body\":[32,1],\"from\":0,\"middle\":1,\"reason\":\"pair\",\"symbol\":0,\"to\":2}"));
    let graph = run(&["explain", "--dot"], text).stdout;
    assert!(graph.contains("\"0 0 2\" -> \"0 32 1\" [label=\"first\"];"), "{graph}");
}
