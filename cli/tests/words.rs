//! Words that ABNF text is asked about: the automaton of a word, characters that cannot be typed or that the text has not, words that are too long, and
//! words in the nightly check. The expected lines are worked out by hand.
mod support;

use std::fs;
use support::{file, folder, run, RADIO_ABNF, RADIO_TEXT};

/// go is g, in either case, and stop; stop is T or CR as values. 0 and 1 are the names, 2 is for the letter; the characters are CR, G, T and g.
const GO: &str = "go = \"g\" stop\nstop = %x54 / %x0D\n";

/// The report on a word of GO: two given transitions, the letter's, stop's and go's, the last by the one meeting of the others.
const YES: &str = "states 3\nexamined 5\njoins 1\nstart yes\nempty no\ngrowing no\n";

fn report(word: &str, abnf: &str) -> support::Ran {
    run(&["report", "--abnf", "--word", word], abnf.as_bytes())
}

#[test]
fn yes_and_no() {
    for word in ["gT", "GT", "g%x0D", "g\r", "%x67%x54"] {
        report(word, GO).prints(YES);
    }
    // The letter alone; the end alone; both the wrong way round, each of which is derived.
    report("g", GO).prints("states 2\nexamined 2\njoins 0\nstart no\nempty no\ngrowing no\n");
    report("T", GO).prints("states 2\nexamined 2\njoins 0\nstart no\nempty no\ngrowing no\n");
    report("Tg", GO).prints("states 3\nexamined 4\njoins 0\nstart no\nempty no\ngrowing no\n");
}

/// The empty word has one state, which is the first and the last.
#[test]
fn the_empty_word() {
    report("", GO).prints("states 1\nexamined 0\njoins 0\nstart no\nempty no\ngrowing no\n");
    report("", "a = \"\"\n").prints("states 1\nexamined 1\njoins 0\nstart yes\nempty no\ngrowing no\n");
    run(&["explain", "--abnf", "--word", ""], b"a = \"\"\n")
        .prints("accepted yes\nform a\nsequence 0 0\nrecords 1\n0 a 0 by a -> empty\n");
}

/// The example's recorded command, by hand: six given transitions; m's, three digits and four strings of digits, t's, tone's tail and tone, memory's tail
/// and memory, two settings, the end and two commands. Meetings: one for the two digits as digits, one for each tail, tone and memory, two for commands.
#[test]
fn the_example() {
    let path = file("word-example", "radio.abnf", RADIO_ABNF);
    let expected = "states 7\nexamined 24\njoins 7\nstart yes\nempty no\ngrowing yes\n";
    for word in ["M5T88;", "m5T88;", "m5t88%x0d"] {
        run(&["report", "--word", word, &path], b"").prints(expected);
    }
    let no = run(&["report", "--word", "M5T8;", &path], b"").stdout;
    assert_eq!(no.lines().nth(3), Some("start no"));
}

#[test]
fn explanations() {
    let path = file("word-explain", "go.abnf", GO.as_bytes());
    run(&["explain", "--word", "gT", &path], b"").prints(
        "accepted yes\nform go\nsequence 0 2\nrecords 5\n0 \"g\" 1 given\n0 \"g\"/\"G\" 1 by \"g\"/\"G\" -> \"g\"\n\
        1 \"T\" 2 given\n1 stop 2 by stop -> \"T\"\n0 go 2 by go -> \"g\"/\"G\" stop at 1\n",
    );
    run(&["explain", "--tree", "--word", "g%x0D", &path], b"").prints(
        "accepted yes\nform go\nsequence 0 2\n0 go 2 by go -> \"g\"/\"G\" stop at 1\n  0 \"g\"/\"G\" 1 by \"g\"/\"G\" -> \"g\"\n\
        \x20   0 \"g\" 1 given\n  1 stop 2 by stop -> %x0D\n    1 %x0D 2 given\n",
    );
    // Forms have the names that answers show.
    let form = "accepted yes\nform \"g\"/\"G\" %x0D\nsequence 0 1 2\nrecords 3\n0 \"g\" 1 given\n\
        0 \"g\"/\"G\" 1 by \"g\"/\"G\" -> \"g\"\n1 %x0D 2 given\n";
    run(&["explain", "--word", "g%x0D", &path, "\"g\"/\"G\"", "%x0D"], b"").prints(form);
    run(&["explain", "--word", "gT", &path, "stop"], b"").prints("accepted no\nform stop\nrecords 0\n");
    run(&["explain", "--word", "gT", &path, "stp"], b"").says(&["'stp' is no symbol", "Did you mean 'stop'?"]);
    let dot = run(&["explain", "--dot", "--word", "gT", &path], b"").stdout;
    assert!(dot.contains("label=\"0 \\\"g\\\"/\\\"G\\\" 1\\nby \\\"g\\\"/\\\"G\\\" -> \\\"g\\\"\""), "{dot}");
    let json = run(&["explain", "--format", "json", "--word", "gT", &path], b"").stdout;
    assert!(json.starts_with("{\"accepted\":true,\"form\":[0],\"missing\":null,\"records\":[{"), "{json}");
    assert!(json.ends_with("\"33\":\"\\\"G\\\"\",\"34\":\"\\\"T\\\"\",\"35\":\"\\\"g\\\"\"},\"word\":\"gT\"}\n"));
}

/// No transition is by it, so that all before it is derived and all behind it; the answer is no, for the reason that is told.
#[test]
fn a_character_that_the_text_has_not() {
    let path = file("word-missing", "go.abnf", GO.as_bytes());
    for (word, shown, name, position) in [
        ("gt", "gt", "\"t\"", 1),
        ("gTx", "gTx", "\"x\"", 2),
        ("%x00T", "%x00T", "%x00", 0),
        ("g\\", "g\\", "\"\\\\\"", 1),
    ] {
        let told = format!(
            "ropeclover: {path}: word '{shown}': the character {name} at position {position} of the word is not used in the grammar, so the answer is no\n"
        );
        let ran = run(&["report", "--word", word, &path], b"");
        assert_eq!((ran.stderr.as_str(), ran.status), (told.as_str(), Some(0)));
        assert!(ran.stdout.contains("\nstart no\n"), "{}", ran.stdout);
        let ran = run(&["explain", "--word", word, &path], b"");
        assert_eq!((ran.stdout.as_str(), ran.stderr), ("accepted no\nform go\nrecords 0\n", told));
    }
    let json = run(&["report", "--format", "json", "--word", "Gt", &path], b"");
    let expected =
        "{\"empty\":false,\"examined\":2,\"growing\":false,\"joins\":0,\"missing\":{\"character\":116,\"position\":1},\
        \"start\":false,\"states\":3,\"word\":\"Gt\"}\n";
    assert_eq!((json.stdout.as_str(), json.status), (expected, Some(0)));
    let json = run(&["explain", "--format", "json", "--word", "%xFFg", &path], b"").stdout;
    assert!(json.contains("\"missing\":{\"character\":255,\"position\":0}") && json.ends_with("\"word\":\"%xFFg\"}\n"));
}

/// A word of 31 characters leads through all 32 states.
#[test]
fn the_longest_word() {
    let abnf = "a = %x61 / %x61 a\n";
    let longest = report(&"a".repeat(31), abnf).stdout;
    assert!(longest.starts_with("states 32\n") && longest.contains("\nstart yes\n"), "{longest}");
    let spelled = report(&"%x61".repeat(31), abnf).stdout;
    assert_eq!(spelled, longest);
    for command in ["report", "explain", "nightly"] {
        let ran = run(&[command, "--abnf", "--word", &"a".repeat(32)], abnf.as_bytes());
        assert_eq!((ran.status, ran.stdout.as_str()), (Some(2), ""));
        ran.says(&["--word", "a word has at most 31 characters, as there are 32 states; this has 32\n"]);
    }
}

#[test]
fn what_is_no_word() {
    for (word, message) in [
        ("g%x0", "%x is followed by two hexadecimal digits; a percent sign itself is %x25\n"),
        ("%xgg", "%x is followed by two hexadecimal digits"),
        ("gr\u{fc}n", "a character that is not ASCII is written by its number, as %xE9\n"),
    ] {
        let ran = report(word, GO);
        assert_eq!((ran.status, ran.stdout.as_str()), (Some(2), ""));
        ran.says(&[message]);
    }
    // A percent sign that no x follows is one, and before an x it has its number.
    let abnf = "a = \"%\" / \"%x\"\n";
    for word in ["%", "%x25x", "%x25", "%x25%x58"] {
        assert!(report(word, abnf).stdout.contains("start yes\n"), "{word}");
    }
}

#[test]
fn without_a_word() {
    let path = file("word-none", "go.abnf", GO.as_bytes());
    // S and the five rules.
    let (line, parts) =
        ("refused 9 at 6\n", ["go.abnf: ABNF text has no automaton; --word TEXT gives it one", "--word 'FA;'"]);
    for command in ["report", "explain", "nightly"] {
        run(&[command, &path], b"").refuses(line, &parts);
    }
    let json = run(&["report", "--format", "json", &path], b"");
    let message = "ABNF text has no automaton; --word TEXT gives it one, which reads that word alone";
    json.refuses(
        &format!(
            "{{\"refused\":{{\"column\":null,\"file\":\"{path}\",\"line\":null,\"message\":\"{message}\",\"number\":9,\"place\":6,\"suggestion\":null}}}}\n"
        ),
        &parts,
    );
}

/// A job and its text have an automaton of their own.
#[test]
fn words_are_for_abnf_text() {
    let (abnf, text) =
        (file("word-abnf", "go.abnf", GO.as_bytes()), file("word-text", "radio.txt", RADIO_TEXT.as_bytes()));
    let message = format!("error: {text}: --word is for ABNF text, and this has an automaton of its own\n");
    for command in ["report", "explain"] {
        let ran = run(&[command, "--word", "gT", &text], b"");
        assert_eq!((ran.status, ran.stdout.as_str(), ran.stderr.as_str()), (Some(2), "", message.as_str()));
    }
    let ran = run(&["report", "--word", "gT", &text, &abnf], b"");
    assert_eq!((ran.status, ran.stdout, ran.stderr), (Some(2), format!("{abnf}:\n{YES}"), message));
    for command in ["codes", "clean", "read", "assemble", "binarize"] {
        assert_eq!(run(&[command, "--word", "gT", &abnf], b"").status, Some(2));
    }
}

/// What nightly tells of a word of GO that is one.
const ALIKE: &str = "alike: states 3, examined 5, joins 1, start yes, empty no, growing no, useless symbols 0\n";
const NO: &str = "alike: states 2, examined 2, joins 0, start no, empty no, growing no, useless symbols 0\n";

#[test]
fn words_of_the_nightly_check() {
    let words = ["nightly", "--abnf", "--word", "gT", "--word", "%x67", "--word", "%x67T"];
    // What is asked twice is told once.
    run(&words, GO.as_bytes()).prints(&format!("word 'gT': {ALIKE}word 'g': {NO}"));
    run(&[&words[..], &["--form", "\"g\"/\"G\" stop"]].concat(), GO.as_bytes()).prints(&format!(
        "word 'gT': {ALIKE}word 'gT': form \"g\"/\"G\" stop: accepted yes, records 4\n\
        word 'g': {NO}word 'g': form \"g\"/\"G\" stop: accepted no, records 0\n"
    ));
    let ran = run(&["nightly", "--abnf", "--word", "g t", "--word", "gT", "--form", "old"], GO.as_bytes());
    assert_eq!(ran.stderr.matches("skipped --form 'old'").count(), 1);
    ran.says(&["word 'g%x20t': the character \" \" at position 1 of the word is not used in the grammar, so the answer is no\n"]);
    assert!(ran.stdout.starts_with("word 'g%x20t': alike: states 4, examined 2, joins 0, start no,"), "{}", ran.stdout);
    // The form that no file has the names of makes the status.
    assert_eq!(ran.status, Some(1));
}

/// Words are for the ABNF texts among the files.
#[test]
fn words_and_several_files() {
    let (abnf, text) =
        (file("words-abnf", "go.abnf", GO.as_bytes()), file("words-text", "radio.txt", RADIO_TEXT.as_bytes()));
    let ran = run(&["nightly", "--word", "gT", "--word", "g", &text, &abnf], b"");
    assert_eq!((ran.status, ran.stderr.as_str()), (Some(0), ""));
    assert!(ran.stdout.starts_with(&format!("{text}: alike: states 6, examined 20,")), "{}", ran.stdout);
    assert!(ran.stdout.ends_with(&format!("{abnf}: word 'gT': {ALIKE}{abnf}: word 'g': {NO}")), "{}", ran.stdout);
    let ran = run(&["nightly", "--word", "gT", &text], b"");
    assert_eq!((ran.status, ran.stderr.as_str()), (Some(1), "ropeclover: --word: no file is ABNF text\n"));
    assert!(ran.stdout.starts_with("alike: states 6,"));
}

#[test]
fn words_of_a_baseline() {
    let folder = folder("words-baseline");
    let (abnf, last) = (folder.join("go.abnf"), folder.join("last"));
    let nightly = |words: &[&str]| {
        run(&[&["nightly", "--baseline", last.to_str().unwrap(), abnf.to_str().unwrap()], words].concat(), b"")
    };
    fs::write(&abnf, GO).unwrap();
    assert_eq!(nightly(&["--word", "gT"]).status, Some(0));
    let first = format!(
        "ropeclover baseline 1\n\nfile {}\nempty = no\ngrowing = no\ncode go = 1\ncode stop = 1\ncode \"g\"/\"G\" = 1\ncode %x0D = 1\n\
        code \"G\" = 1\ncode \"T\" = 1\ncode \"g\" = 1\nword 'gT' = start yes, states 3, examined 5, joins 1\n\
        word 'gT' form go = accepted yes, records 5\n",
        abnf.display()
    );
    assert_eq!(fs::read_to_string(&last).unwrap(), first);
    // Another word is taken in; one that is not asked about stays.
    let ran = nightly(&["--word", "g"]);
    assert_eq!((ran.status, ran.stderr.as_str()), (Some(0), ""));
    let second = format!(
        "{first}word 'g' = start no, states 2, examined 2, joins 0\nword 'g' form go = accepted no, records 0\n"
    );
    assert_eq!(fs::read_to_string(&last).unwrap(), second);
    // Without T as an end its character is gone, and the word is none.
    fs::write(&abnf, GO.replace("%x54 / ", "")).unwrap();
    let ran = nightly(&["--word", "gT", "--word", "g"]);
    let told = [
        "word 'gT': the character \"T\" at position 1 of the word is not used in the grammar, so the answer is no",
        "not as last seen: code \"T\" was 1, is not there",
        "not as last seen: word 'gT' was start yes, states 3, examined 5, joins 1, is start no, states 3, examined 2, joins 0",
        "not as last seen: word 'gT' form go was accepted yes, records 5, is accepted no, records 0",
    ];
    assert_eq!(
        (ran.stderr, ran.status),
        (told.map(|told| format!("ropeclover: {}: {told}\n", abnf.display())).concat(), Some(1))
    );
    assert_eq!(fs::read_to_string(&last).unwrap(), second);
}

/// A word does not matter for what is refused before it.
#[test]
fn a_refused_text_with_words() {
    let path = file("words-refused", "bad.abnf", b"go = (stop)\n");
    for words in
        [&["report", "--word", "g"][..], &["explain", "--word", "g"], &["nightly", "--word", "g", "--word", "h"]]
    {
        run(&[words, &[&path]].concat(), b"").refuses("refused 16 at 5\n", &["groups are outside the part of ABNF"]);
    }
}
