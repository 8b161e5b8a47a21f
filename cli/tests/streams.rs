//! Input and output that go wrong: full devices, broken pipes, bytes that are no text, control characters, floods.
mod support;

use std::ffi::OsStr;
use std::fs::File;
use std::io::Write;
use std::os::unix::ffi::OsStrExt;
use std::os::unix::process::ExitStatusExt;
use std::process::{Command, Stdio};
use support::{folder, run, Ran, COMMAND, RADIO_ABNF, RADIO_JOB, RADIO_TEXT, REPORT};

fn onto_a_full_device(words: &[&str], input: &[u8]) -> Ran {
    let full = File::options().write(true).open("/dev/full").unwrap();
    let mut child =
        Command::new(COMMAND).args(words).stdin(Stdio::piped()).stdout(full).stderr(Stdio::piped()).spawn().unwrap();
    let _ = child.stdin.take().unwrap().write_all(input);
    Ran::of(child.wait_with_output().unwrap())
}

#[test]
fn a_full_device_is_reported() {
    let text = RADIO_TEXT.as_bytes();
    for words in [
        &["assemble"][..],
        &["report"],
        &["report", "--format", "json"],
        &["codes"],
        &["codes", "--numbers"],
        &["explain"],
        &["explain", "--tree"],
        &["explain", "--dot"],
        &["nightly"],
        &["binarize"],
        &["binarize", "--text"],
        &["clean"],
        &["clean", "--text"],
        &["completions", "bash"],
        &["--help"],
        &["explain", "--help"],
        &["--version"],
    ] {
        let ran = onto_a_full_device(words, text);
        assert_eq!(ran.status, Some(2), "{words:?}");
        assert_eq!(ran.stderr, "ropeclover: standard output: No space left on device (os error 28)\n", "{words:?}");
    }
    let refused = onto_a_full_device(&["report"], b"I 0\n");
    assert_eq!(refused.status, Some(2));
    refused.says(&["refused 8 at 1", "standard output: No space left"]);
    assert_eq!(onto_a_full_device(&["disassemble"], RADIO_JOB).status, Some(2));
    for words in [
        &["read"][..],
        &["read", "--text"],
        &["report", "--abnf", "--word", "F1;"],
        &["nightly", "--abnf", "--word", "F1;"],
    ] {
        let ran = onto_a_full_device(words, RADIO_ABNF);
        assert_eq!((ran.status, ran.stderr.contains("No space left on device")), (Some(2), true), "{words:?}");
    }
}

/// A closed output is told: what is written would be lost.
#[test]
fn a_closed_output_is_reported() {
    for words in
        ["report", "codes --format json", "explain --tree", "nightly", "assemble", "clean", "--help", "report --bogus"]
    {
        let line = format!("exec {COMMAND} {words} >&-");
        let mut child =
            Command::new("bash").args(["-c", &line]).stdin(Stdio::piped()).stderr(Stdio::piped()).spawn().unwrap();
        let _ = child.stdin.take().unwrap().write_all(REPORT.as_bytes());
        let ran = Ran::of(child.wait_with_output().unwrap());
        assert_eq!(ran.status, Some(2), "{words}");
        match words.contains("bogus") {
            true => ran.says(&["--bogus"]),
            false => {
                assert_eq!(ran.stderr, "ropeclover: standard output: Bad file descriptor (os error 9)\n", "{words}")
            }
        }
    }
}

/// The reader is gone before the command has its input, so before it writes.
#[test]
fn a_broken_pipe_ends_it_as_any_filter() {
    for words in [&["report"][..], &["codes"], &["explain", "--tree"], &["nightly"], &["assemble"]] {
        let mut child = Command::new(COMMAND)
            .args(words)
            .stdin(Stdio::piped())
            .stdout(Stdio::piped())
            .stderr(Stdio::piped())
            .spawn()
            .unwrap();
        drop(child.stdout.take());
        child.stdin.take().unwrap().write_all(RADIO_TEXT.as_bytes()).unwrap();
        let output = child.wait_with_output().unwrap();
        assert_eq!(output.status.signal(), Some(13), "{words:?}");
        assert!(output.stderr.is_empty(), "{words:?}");
    }
}

#[test]
fn arguments_that_are_no_utf8() {
    let bad = OsStr::from_bytes(b"\xff\xfe");
    for words in [
        &[OsStr::new("explain"), OsStr::new("-"), bad][..],
        &[bad],
        &[OsStr::new("nightly"), OsStr::new("--form"), bad],
    ] {
        let ran = run(words, REPORT.as_bytes());
        assert_eq!((ran.status, ran.stdout.as_str()), (Some(2), ""), "{}", ran.stderr);
        assert!(!ran.stderr.contains("panicked") && !ran.stderr.is_empty());
    }
    // A file may have any name.
    let path = folder("no-utf8").join(bad);
    std::fs::write(&path, REPORT).unwrap();
    assert_eq!(run(&[OsStr::new("report"), path.as_os_str()], b"").status, Some(0));
}

#[test]
fn input_that_is_no_utf8() {
    run(&["report"], b"S 0\nU 0 \xff\n")
        .refuses("", &["<stdin>: neither a job, as no byte is zero, nor text, as line 2 is no UTF-8 at byte 4"]);
}

#[test]
fn control_characters_are_not_repeated() {
    let inputs: [&[u8]; 4] =
        [b"\x1b[2J 0\n", b"S 0\nU 0 \x1b]0;x\x07\n", b"S 0 # \x1b[31m\nT 0 64 0 # \x1b[31m\n", b"name 1 \"\x1b\"\n"];
    for input in inputs {
        let ran = run(&["report"], input);
        assert_eq!(ran.status, Some(1));
        assert!(!ran.stderr.contains('\x1b') && !ran.stderr.contains('\x07'), "{:?}", ran.stderr);
    }
    for words in [&["\x1b[2J"][..], &["report", "\x1b[2J"], &["explain", "-", "\x1b[2J"], &["nightly", "--\x1b[2J"]] {
        let ran = run(words, REPORT.as_bytes());
        assert_eq!(ran.status, Some(2), "{words:?}");
        assert!(!ran.stderr.contains('\x1b'), "{:?}", ran.stderr);
    }
}

#[test]
fn floods_are_not_repeated() {
    let long = "x".repeat(5_000_000);
    for text in [
        format!("{long}\n"),
        format!("U 0 {long}\n"),
        format!("T 0 64 0 # {long}\n"),
        format!("name 1 {long}\n"),
        format!("name 1 \"{long}\"\n"),
    ] {
        let ran = run(&["report"], text.as_bytes());
        assert_eq!(ran.status, Some(1));
        assert!(ran.stderr.len() < 2_000, "{}", ran.stderr.len());
    }
    // A form of very many symbols, and very many forms.
    let text = "name 40 \"0-9\"\nS 0\nI 0\nT 0 40 0\n";
    let digits = "5".repeat(3_000_000);
    let ran = run(&["nightly"], format!("{text}form \"{digits}\"\n").as_bytes());
    ran.refuses("refused 12 at 3000000\n", &["^^^^^ the 65th symbol"]);
    assert!(ran.stderr.len() < 2_000, "{}", ran.stderr.len());
    for forms in ["form 41\n".repeat(300_000), format!("form {}\n", "41 ".repeat(60))] {
        let ran = run(&["nightly"], format!("{text}{forms}").as_bytes());
        assert_eq!((ran.stderr.lines().count(), ran.stdout.lines().count(), ran.status), (1, 2, Some(0)));
    }
    // The caret stands at the field behind a long comment's worth of blanks, too.
    let far = format!("T 0{}64 0\n", " ".repeat(100_000));
    run(&["report"], far.as_bytes())
        .refuses("refused 4 at 0\n", &["<stdin>:1:100004\n", "64 0\n", "^^ field 2 of a T record"]);
}

#[test]
fn long_input_is_said_to_be_longer_than_a_job() {
    // By the kinds of records 1 and 2 it is a job; zeros there are a long job's.
    for (start, line, message) in [
        (&b"S\0\0\0I\0\0\0F"[..], "refused 2 at 16385\n", "the job has more than 16384 bytes, 4096 records"),
        (b"S", "refused 2 at 49153\n", "the long job has more than 49152 bytes, 4096 records"),
    ] {
        let path = folder("long").join("zeros");
        std::fs::write(&path, start).unwrap();
        File::options().write(true).open(&path).unwrap().set_len(2 << 30).unwrap();
        let ran = run(&["report", path.to_str().unwrap()], b"");
        ran.refuses(line, &[message]);
        assert!(!ran.stderr.contains("16385 bytes") && !ran.stderr.contains("49153 bytes"));
    }
    // Where not even the first byte is a kind's, the answers are those of the proved programs.
    for (length, line) in [
        (39, "refused 1 at 9\n"),
        (16384, "refused 3 at 0\n"),
        (16385, "refused 2 at 16385\n"),
        (60000, "refused 2 at 16385\n"),
    ] {
        run(&["report"], &vec![0; length]).refuses(line, &[]);
    }
    let text = "#\n".repeat(9 << 20);
    run(&["report"], text.as_bytes()).refuses("", &["<stdin>: the text has more than 16777216 bytes"]);
}

/// Runs the command by a shell that lets it have so many KB of memory.
fn within(memory: usize, words: &str) -> Ran {
    let line = format!("ulimit -v {memory} && exec {COMMAND} {words}");
    Ran::of(Command::new("bash").args(["-c", &line]).output().unwrap())
}

fn within_a_gigabyte(words: &str) -> Ran {
    within(1_000_000, words)
}

/// Texts of 16 MB with millions of lines that are malformed, or of records: the longest text with little more memory than its own. Of malformed lines
/// the first thousand are told.
#[test]
fn long_texts_within_little_memory() {
    for (line, read) in [("foo", 0), ("U 0 \"", 0), ("name 1 a", 1)] {
        let text = format!("<(yes '{line}' | head -c 16000000)");
        let ran = within(100_000, &format!("report --format json {text}"));
        let message = "at least 1000 lines are malformed\"}}\n";
        assert!(ran.status == Some(1) && ran.stdout.ends_with(message), "{line}: {}", ran.stderr);
        assert_eq!(ran.stdout.matches("\"line\":").count(), 1_000);
        assert!(ran.stdout.contains(&format!("\"line\":{},", 1_000 + read)));
        ran.says(&["at least 990 more lines are malformed\n"]);
    }
    within(200_000, "report <(yes 'S 0' | head -c 16000000)").refuses(
        "refused 2 at 16000000\n",
        &["the text has 4000000 records; a job has at most 4096\n", "4097 | S 0\n", "^^^ the 4097th record\n"],
    );
}

/// Devices that give zeros without end, and a text without end: no more is read than tells that it is too long.
#[test]
fn inputs_without_end() {
    let refused = "refused 2 at ";
    for words in
        ["report /dev/zero", "codes - </dev/full", "nightly /dev/zero", "binarize </dev/zero", "clean /dev/full"]
    {
        let ran = within_a_gigabyte(words);
        assert_eq!((ran.status, &ran.stdout[..refused.len()]), (Some(1), refused), "{words}: {}", ran.stderr);
    }
    for words in
        ["read /dev/zero", "codes --abnf </dev/full", "nightly --abnf --word a /dev/zero", "read <(yes 'a = %x41')"]
    {
        within_a_gigabyte(words).refuses("refused 2 at 16385\n", &["the text has more than 16384 bytes\n"]);
    }
    for words in ["report <(yes '#')", "explain - < <(yes '#')", "assemble <(yes '#')", "nightly <(yes '#')"] {
        within_a_gigabyte(words).refuses("", &["the text has more than 16777216 bytes"]);
    }
}

#[test]
fn files_that_cannot_be_read() {
    for words in [
        &["report", "/no/such/file"][..],
        &["codes", "/"],
        &["nightly", "/no/such/file"],
        &["assemble", "/no/such/file"],
        &["read", "/no/such/file"],
        &["codes", "/no/such/file.abnf"],
    ] {
        let ran = run(words, b"");
        assert_eq!((ran.status, ran.stdout.as_str()), (Some(2), ""), "{words:?}");
        assert!(ran.stderr.starts_with("ropeclover: /"), "{}", ran.stderr);
    }
    let ran = run(&["explain", "3"], b"");
    assert_eq!(ran.status, Some(2));
    ran.says(&[
        "3: No such file or directory",
        "Symbols come after the file; '-' is standard input: ropeclover explain - 3",
    ]);
}
