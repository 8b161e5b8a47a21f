//! The nightly check: two runs, several files, forms of one's own, and what was last seen.
mod support;

use std::ffi::OsStr;
use std::fs;
use std::os::unix::ffi::OsStrExt;
use support::{file, folder, run, RADIO_JOB, RADIO_TEXT, REPORT};

const RADIO: &str = "alike: states 6, examined 20, joins 5, start yes, empty no, growing yes, useless symbols 2\n";
const SPECIFIED: &str = "alike: states 3, examined 11, joins 8, start yes, empty no, growing yes, useless symbols 0\n";

#[test]
fn alike_at_any_pace_and_in_any_order() {
    for (steps, seed) in [("1", "5"), ("7", "0"), ("100000", "18446744073709551615")] {
        run(&["nightly", "--steps", steps, "--seed", seed], RADIO_JOB).prints(RADIO);
    }
    run(&["nightly"], REPORT.as_bytes()).prints(SPECIFIED);
}

#[test]
fn several_files_keep_their_order() {
    let (radio, report) = (
        file("several-radio", "radio.txt", RADIO_TEXT.as_bytes()),
        file("several-report", "report.txt", REPORT.as_bytes()),
    );
    let refused = file("several-refused", "refused.txt", b"S 0\n");
    for jobs in ["1", "2", "9"] {
        let ran = run(&["nightly", "--jobs", jobs, &radio, &refused, &report, "/no/such/file"], b"");
        let form = "form memory-letter \"0-9\" tone: accepted yes, records 11\n";
        let expected = format!("{radio}: {RADIO}{radio}: {form}{refused}: refused 9 at 1\n{report}: {SPECIFIED}");
        assert_eq!((ran.stdout.as_str(), ran.status), (expected.as_str(), Some(2)));
        ran.says(&["error[refused 9 at 1]", "/no/such/file: No such file"]);
    }
    assert_eq!(run(&["nightly", &radio, &refused], b"").status, Some(1));
}

/// However long they are, so that two files are never told as one.
#[test]
fn names_of_files_are_whole() {
    let long = file("long-name", &"n".repeat(200), SMALL.as_bytes());
    let ran = run(&["nightly", &long, &long], b"");
    assert_eq!(ran.stdout.matches(&format!("{long}: alike: ")).count(), 2);
}

#[test]
fn forms_of_ones_own() {
    // M, a digit and a tone command: (0 34 1), (1 35 2) given, and the tone's seven records from state 2 on.
    run(&["nightly", "--form", "memory-letter \"0-9\" tone", "--form", "tone"], RADIO_TEXT.as_bytes()).prints(
        &format!(
            "{RADIO}form memory-letter \"0-9\" tone: accepted yes, records 11\nform tone: accepted no, records 0\n"
        ),
    );
    let refused = run(&["nightly", "--form", "#64"], RADIO_TEXT.as_bytes());
    refused.refuses("refused 11 at 0\n", &["1 | 64\n", "a symbol is 0 to 63"]);
}

/// A form whose names a file lacks is skipped for this file, and fails where every file lacks them.
#[test]
fn forms_whose_names_are_missing() {
    let (radio, small) = (folder("names").join("radio.txt"), folder("no-names").join("small.txt"));
    fs::write(&radio, RADIO_TEXT).unwrap();
    fs::write(&small, SMALL).unwrap();
    let (radio, small) = (radio.to_str().unwrap(), small.to_str().unwrap());
    let skipped = format!("ropeclover: {small}: skipped --form 'memory': 'memory' is no symbol: neither a name nor a number from 0 to 63\n");
    let ran = run(&["nightly", "--form", "memory", radio, small], b"");
    assert_eq!((ran.status, ran.stderr.as_str()), (Some(0), skipped.as_str()));
    assert!(ran.stdout.contains("radio.txt: form memory: accepted yes, records 14\n"), "{}", ran.stdout);
    assert!(ran.stdout.contains("small.txt: alike: ") && !ran.stdout.contains("small.txt: form"));
    let ran = run(&["nightly", "--form", "memory", "--form", "go", small], b"");
    assert_eq!((ran.status, ran.stdout.contains("form go: accepted yes, records 2\n")), (Some(1), true));
    ran.says(&["ropeclover: --form 'memory': no file has its names\n", &skipped]);
    run(&["nightly", "--form", "memry", radio], b"").says(&["'memry' is no symbol", "Did you mean 'memory'?"]);
    // A number that is no character is told for each file.
    let ran = run(&["nightly", "--form", "32", small], b"");
    assert_eq!(ran.status, Some(0));
    ran.says(&[&format!("ropeclover: {small}: 32 is read as symbol 32")]);
}

/// Forms that belong to a file stand in its text. By hand: what is asked twice is told once, as it is one form.
#[test]
fn forms_of_the_text() {
    let text = format!("form go # the start symbol\nform #32\nform \"\"\n{SMALL}form #32 go\n");
    let alike = "alike: states 2, examined 2, joins 0, start yes, empty no, growing no, useless symbols 0\n";
    run(&["nightly", "--form", "#32"], text.as_bytes()).prints(&format!(
        "{alike}form go: accepted yes, records 2\nform 32: accepted yes, records 1\nform \"\": accepted no, records 0\n\
        form 32 go: accepted no, records 0\n"
    ));
    // The other subcommands take such a text; the job has no forms.
    assert_eq!(run(&["assemble"], text.as_bytes()).bytes, run(&["assemble"], SMALL.as_bytes()).bytes);
    run(&["report"], format!("{SMALL}form\nform go sing\nform \"go\"\n").as_bytes()).refuses(
        "",
        &[
            "a form is due here; \"\" is the empty one\n",
            "7 | form\n  | ^^^^\n",
            "'sing' is no symbol: neither a name nor a number from 0 to 63\n",
            "8 | form go sing\n  |         ^^^^\n",
            "'g' is no symbol: no character is named so",
        ],
    );
    run(&["nightly"], format!("{SMALL}form #64\n").as_bytes()).refuses("refused 11 at 0\n", &["1 | 64\n"]);
}

/// Variable 1 is named but stands in no record, so the long rule takes it, and the form would ask about the rule's tail.
#[test]
fn a_form_of_a_variable_that_was_taken() {
    let text = "name 1 old\nS 0\nL 0 32 32 32\nI 0\nform old\n";
    run(&["nightly"], text.as_bytes()).refuses(
        "",
        &["<stdin>: the form in line 5 has variable 1, which no record names, so that a long rule took it\n"],
    );
}

/// S → a on a chain that reads a; without its F record the start symbol is not accepted.
const SMALL: &str = "name 0 go\nS go\nU go 32\nI 0\nF 1\nT 0 32 1\n";

#[test]
fn a_baseline_is_written_and_compared() {
    let folder = folder("baseline");
    let (job, last) = (folder.join("job.txt"), folder.join("last"));
    let words = ["nightly", "--baseline", last.to_str().unwrap(), job.to_str().unwrap()];
    fs::write(&job, SMALL).unwrap();
    assert_eq!(run(&words, b"").status, Some(0));
    let written = fs::read_to_string(&last).unwrap();
    let expected = format!(
        "ropeclover baseline 1\n\nfile {}\nstates = 2\nexamined = 2\njoins = 0\nstart = yes\nempty = no\ngrowing = no\ncode go = 1\ncode 32 = 1\n\
        form go = accepted yes, records 2\n",
        job.display()
    );
    assert_eq!(written, expected);
    assert_eq!(run(&words, b"").stderr, "");
    // What differs is told, and what was last seen stays. The form's records go with its being accepted.
    fs::write(&job, SMALL.replace("F 1\n", "U go 33\n")).unwrap();
    let ran = run(&words, b"");
    assert_eq!(ran.status, Some(1));
    let told = [
        "start was yes, is no",
        "code 33 was not there, is 1",
        "form go was accepted yes, records 2, is accepted no, records 0",
    ];
    assert_eq!(
        ran.stderr,
        told.map(|told| format!("ropeclover: {}: not as last seen: {told}\n", job.display())).concat()
    );
    assert_eq!(fs::read_to_string(&last).unwrap(), written);
    // An update takes what is seen now.
    assert_eq!(run(&[&words[..], &["--update"]].concat(), b"").status, Some(0));
    assert!(fs::read_to_string(&last).unwrap().contains("start = no\n"));
    assert_eq!(run(&words, b"").status, Some(0));
}

#[test]
fn a_baseline_takes_new_files_and_forms() {
    let folder = folder("baseline-new");
    let (one, two, last) = (folder.join("one.txt"), folder.join("two.txt"), folder.join("last"));
    fs::write(&one, SMALL).unwrap();
    fs::write(&two, SMALL).unwrap();
    let (one, two, last) = (one.to_str().unwrap(), two.to_str().unwrap(), last.to_str().unwrap());
    run(&["nightly", "--baseline", last, one], b"");
    assert_eq!(run(&["nightly", "--baseline", last, "--form", "#32", one, two], b"").status, Some(0));
    let text = fs::read_to_string(last).unwrap();
    assert_eq!(text.matches("form 32 = accepted yes, records 1\n").count(), 2);
    assert_eq!(run(&["nightly", "--baseline", last, one], b"").status, Some(0));
    assert_eq!(fs::read_to_string(last).unwrap(), text);
}

/// By hand: without the rules of b the language is empty, b and z derive no string, and a is never reached. Without the T records state 2 is gone, and
/// with it two of three transitions.
#[test]
fn every_difference_is_told_the_weightiest_first() {
    let folder = folder("baseline-every");
    let (job, last) = (folder.join("job.txt"), folder.join("last"));
    let words = ["nightly", "--baseline", last.to_str().unwrap(), job.to_str().unwrap()];
    let text = "name 0 z\nname 1 b\nname 2 a\nname 33 \"y\"\nS z\nP z b a\nU a 32\nI 0\nF 1\n";
    fs::write(&job, format!("{text}T 0 0 1\nT 1 32 2\nU b \"y\"\nP b b b\n")).unwrap();
    assert_eq!(run(&words, b"").status, Some(0));
    fs::write(&job, format!("{text}T 0 \"y\" 1\n")).unwrap();
    let ran = run(&words, b"");
    assert_eq!(ran.status, Some(1));
    let told = [
        "start was yes, is no",
        "empty was no, is yes",
        "growing was yes, is no",
        "code \"y\" was 1, is not there",
        "code 32 was 1, is 3",
        "code a was 1, is 3",
        "code b was 1, is 2",
        "code z was 1, is 2",
        "form z was accepted yes, records 1, is accepted no, records 0",
        "examined was 3, is 1",
        "states was 3, is 2",
    ];
    assert_eq!(
        ran.stderr,
        told.map(|told| format!("ropeclover: {}: not as last seen: {told}\n", job.display())).concat()
    );
}

/// A file that the baseline has and the call has not is told; the status stays, as part of the files may be checked.
#[test]
fn a_file_that_is_not_checked_is_told() {
    let folder = folder("baseline-gone");
    let (one, two, last) = (folder.join("one.txt"), folder.join("two.txt"), folder.join("last"));
    fs::write(&one, SMALL).unwrap();
    fs::write(&two, SMALL).unwrap();
    let (one, two, last) = (one.to_str().unwrap(), two.to_str().unwrap(), last.to_str().unwrap());
    assert_eq!(run(&["nightly", "--baseline", last, one, two], b"").stderr, "");
    let told = format!("ropeclover: {last}: {two} was seen last time, and is not checked now\n");
    for more in [&[][..], &["--update"]] {
        let ran = run(&[&["nightly", "--baseline", last, one], more].concat(), b"");
        assert_eq!((ran.stderr.as_str(), ran.status), (told.as_str(), Some(0)));
    }
    assert!(fs::read_to_string(last).unwrap().contains(&format!("file {two}\n")));
}

/// Names of files that are no UTF-8, or have characters that cannot be shown, are kept apart in the baseline and in answers.
#[test]
fn names_that_are_no_utf8_keep_apart() {
    let folder = folder("baseline-names");
    let last = folder.join("last");
    let names: [&[u8]; 5] = [b"a\xff", b"a\xfe", b"a\n", b"a\t", b"a\\xff"];
    let paths: Vec<_> = names.iter().map(|name| folder.join(OsStr::from_bytes(name))).collect();
    for (at, path) in paths.iter().enumerate() {
        fs::write(path, SMALL.replace("F 1", &format!("F {}", at + 1))).unwrap();
    }
    let mut words = vec![OsStr::new("nightly"), OsStr::new("--baseline"), last.as_os_str()];
    words.extend(paths.iter().map(|path| path.as_os_str()));
    let first = run(&words, b"");
    assert_eq!((first.status, first.stderr.as_str()), (Some(0), ""));
    for name in ["a\\xff", "a\\xfe", "a\\n", "a\\t", "a\\\\xff"] {
        assert!(first.stdout.contains(&format!("{}/{name}: alike: ", folder.display())), "{name}: {}", first.stdout);
    }
    assert_eq!(fs::read_to_string(&last).unwrap().matches("\nfile ").count(), 5);
    assert_eq!(run(&words, b"").stderr, "");
}

#[test]
fn a_symbol_that_becomes_useless_is_told() {
    let folder = folder("baseline-code");
    let (job, last) = (folder.join("job.txt"), folder.join("last"));
    let words = ["nightly", "--baseline", last.to_str().unwrap(), job.to_str().unwrap()];
    fs::write(&job, "name 1 tone\nS 0\nU 0 32\nU 0 tone\nU tone 33\nI 0\n").unwrap();
    assert_eq!(run(&words, b"").status, Some(0));
    fs::write(&job, "name 1 tone\nS 0\nU 0 32\nU tone 33\nI 0\n").unwrap();
    run(&words, b"").says(&["not as last seen: code tone was 1, is 3\n"]);
}

#[test]
fn a_file_that_is_no_baseline() {
    let path = file("no-baseline", "last", b"hello\n");
    let ran = run(&["nightly", "--baseline", &path], SMALL.as_bytes());
    assert_eq!((ran.status, ran.stdout.as_str()), (Some(2), ""));
    ran.says(&["last: line 1 is no part of a baseline"]);
    assert_eq!(fs::read_to_string(&path).unwrap(), "hello\n");
    // A device that gives zeros without end.
    let endless = run(&["nightly", "--baseline", "/dev/full"], SMALL.as_bytes());
    assert_eq!((endless.status, endless.stdout.as_str()), (Some(2), ""));
    assert_eq!(endless.stderr, "ropeclover: /dev/full: a baseline has at most 16777216 bytes\n");
    let binary = file("binary-baseline", "last", b"ropeclover baseline 1\n\xff\n");
    run(&["nightly", "--baseline", &binary], SMALL.as_bytes()).says(&["last: a baseline is UTF-8 text"]);
    let unwritable = run(&["nightly", "--baseline", "/no/such/folder/last"], SMALL.as_bytes());
    assert_eq!(unwritable.status, Some(2));
}
