//! ABNF text: the job and its text, line ends, names in every subcommand's answers, files by their names or by the option. The expected lines are worked
//! out by hand.
mod support;

use std::fs;
use support::{file, folder, job, run, RADIO_ABNF};

/// go is g and stop, or nothing; stop is T as a value, so a capital.
const GO: &str = "go = \"g\" stop / \"\" ; a comment\r\nstop = %x54\r\n";

/// Names are 0 and 1, the letter takes 2; the characters are G, T and g.
const GO_TEXT: &str =
    "name 0 go\nname 1 stop\nname 2 \"g\"/\"G\"\nname 32 \"G\"\nname 33 \"T\"\nname 34 \"g\"\nS go 0 0\nE go 0 0\n\
    P go \"g\"/\"G\" stop\nU stop \"T\" 0\nU \"g\"/\"G\" \"G\" 0\nU \"g\"/\"G\" \"g\" 0\n";

/// The example by numbers. Names are 0 to 8: command, setting, frequency, tone, memory, digits, digit, end, old-scan. Then body by body 9 is for f, 10
/// for t and 11 for tone's tail, 12 for m and 13 for memory's tail, 14 for s. The characters are CR, 0 to 9, a semicolon, FMST and fmst.
const RADIO_RULES: &str = "S 0\nP 0 1 7\nU 1 2\nU 1 3\nU 1 4\nP 2 9 5\nP 3 10 11\nP 4 12 13\nP 5 6 5\nU 5 6\n\
    U 6 33\nU 6 34\nU 6 35\nU 6 36\nU 6 37\nU 6 38\nU 6 39\nU 6 40\nU 6 41\nU 6 42\nU 7 32\nU 7 43\nU 8 14\n\
    U 9 44\nU 9 48\nU 10 47\nU 10 51\nP 11 6 6\nU 12 45\nU 12 49\nP 13 6 3\nU 14 46\nU 14 50\n";

#[test]
fn read_writes_the_job() {
    assert_eq!(run(&["read"], GO.as_bytes()).bytes, job(GO_TEXT));
    assert_eq!(job(GO_TEXT), b"S\0\0\0E\0\0\0P\0\x02\x01U\x01\x21\0U\x02\x20\0U\x02\x22\0");
    let path = file("abnf-read", "radio.abnf", RADIO_ABNF);
    for words in [&["read", &path][..], &["read", "-"], &["read"]] {
        let ran = run(words, RADIO_ABNF);
        assert_eq!((ran.stderr.as_str(), ran.status), ("", Some(0)));
        assert_eq!(ran.bytes, job(RADIO_RULES));
    }
}

#[test]
fn read_writes_the_text() {
    run(&["read", "--text"], GO.as_bytes()).prints(GO_TEXT);
    // A quote, a backslash, a blank, and characters that are not visible: three bodies of one symbol, and one of four with two tails.
    let text = "a = %x22 / \"\\\" / \" \"\r\nA =/ %x00.7F.80.FF\r\n";
    run(&["read", "--text"], text.as_bytes()).prints(
        "name 0 a\nname 1 a.2\nname 2 a.3\nname 32 %x00\nname 33 \" \"\nname 34 \"\\\"\"\nname 35 \"\\\\\"\nname 36 %x7F\n\
        name 37 %x80\nname 38 %xFF\nS a 0 0\nP a %x00 a.2\nU a \" \" 0\nU a \"\\\"\" 0\nU a \"\\\\\" 0\n\
        P a.2 %x7F a.3\nP a.3 %x80 %xFF\n",
    );
}

/// The text is one that assemble reads: it has the same job.
#[test]
fn the_text_is_read_again() {
    for abnf in [GO.as_bytes(), RADIO_ABNF, b"a=%x22.5C.00.0D.FF \"f-9\"\r\n", b"m=\"m\"\r\n"] {
        let text = run(&["read", "--text"], abnf);
        assert_eq!(job(&text.stdout), run(&["read"], abnf).bytes, "{}", text.stdout);
        let codes = run(&["codes"], text.stdout.as_bytes());
        assert_eq!((codes.stdout, codes.stderr), (run(&["codes", "--abnf"], abnf).stdout, String::new()));
    }
}

/// A name is shown as it is first spelled where it begins a line. One that is too long for a text has none, and its tails neither.
#[test]
fn how_names_are_spelled() {
    let text = "Go = sToP\r\nSTOP = %x31\r\nstop =/ GO %x31 go\r\n";
    run(&["read", "--text"], text.as_bytes()).prints(
        "name 0 Go\nname 1 STOP\nname 2 STOP.2\nname 32 \"1\"\nS Go 0 0\nU Go STOP 0\nP STOP Go STOP.2\nU STOP \"1\" 0\n\
        P STOP.2 \"1\" Go\n",
    );
    let (long, longest) = ("n".repeat(65), "n".repeat(64));
    let ran = run(&["read", "--text"], format!("{long} = %x31.31.31\r\n").as_bytes());
    ran.prints("name 32 \"1\"\nS 0 0 0\nP 0 \"1\" 1\nP 1 \"1\" \"1\"\n");
    let ran = run(&["read", "--text"], format!("{longest} = %x31\r\n").as_bytes());
    ran.prints(&format!("name 0 {longest}\nname 32 \"1\"\nS {longest} 0 0\nU {longest} \"1\" 0\n"));
}

/// A line feed alone is a line end, in any of the lines.
#[test]
fn line_ends() {
    let unix = String::from_utf8_lossy(RADIO_ABNF).replace("\r\n", "\n");
    assert!(unix.lines().count() == 10 && !unix.contains('\r'));
    assert_eq!(run(&["read"], unix.as_bytes()).bytes, job(RADIO_RULES));
    let mixed = unix.replacen('\n', "\r\n", 3);
    assert_eq!(run(&["read"], mixed.as_bytes()).bytes, job(RADIO_RULES));
    // Every line of the example itself ends by CRLF.
    assert_eq!(String::from_utf8_lossy(RADIO_ABNF), unix.replace('\n', "\r\n"));
}

/// The subcommands that take ABNF text, with what they are asked.
const ASKED: [&[&str]; 12] = [
    &["codes"],
    &["codes", "--numbers"],
    &["codes", "--format", "json"],
    &["clean"],
    &["clean", "--text"],
    &["report", "--word", "M5T88;"],
    &["report", "--format", "json", "--word", "M5T88;"],
    &["explain", "--word", "M5T88;"],
    &["nightly", "--word", "M5T88;"],
    &["assemble"],
    &["binarize"],
    &["binarize", "--text"],
];

/// By its name, or by the option whatever its name; standard input, which has none, by the option.
#[test]
fn files_by_name_or_by_option() {
    let folder = folder("abnf-files");
    let (named, other) = (folder.join("radio.abnf"), folder.join("radio.txt"));
    fs::write(&named, RADIO_ABNF).unwrap();
    fs::write(&other, RADIO_ABNF).unwrap();
    let (named, other) = (named.to_str().unwrap(), other.to_str().unwrap());
    for words in ASKED {
        let first = run(&[words, &[named]].concat(), b"");
        assert_eq!(first.status, Some(0), "{words:?}: {}", first.stderr);
        for (more, input) in [
            (&["--abnf", named][..], &b""[..]),
            (&["--abnf", other], b""),
            (&["--abnf"], RADIO_ABNF),
            (&["--abnf", "-"], RADIO_ABNF),
        ] {
            let ran = run(&[words, more].concat(), input);
            assert_eq!((ran.bytes, ran.stderr, ran.status), (first.bytes.clone(), first.stderr.clone(), Some(0)));
        }
        // Without either it is no text of records.
        let ran = run(&[words, &[other]].concat(), b"");
        assert!(ran.status == Some(1) && ran.stderr.contains("'command' is no kind of record"), "{}", ran.stderr);
    }
    // read takes nothing else.
    assert_eq!(run(&["read", other], b"").bytes, job(RADIO_RULES));
}

#[test]
fn codes() {
    let go = "useful: 6\n  0 go\n  1 stop\n  2 \"g\"/\"G\"\n  32 \"G\"\n  33 \"T\"\n  34 \"g\"\nderives no string: 0\nnever reached: 0\n";
    run(&["codes", "--abnf"], GO.as_bytes()).prints(go);
    let text = run(&["codes", "--abnf"], RADIO_ABNF).stdout;
    let useless = "derives no string: 0\nnever reached: 4\n  8 old-scan\n  14 \"s\"/\"S\"\n  46 \"S\"\n  50 \"s\"\n";
    assert!(text.starts_with("useful: 31\n  0 command\n") && text.ends_with(useless), "{text}");
    let json = run(&["codes", "--abnf", "--format", "json"], RADIO_ABNF).stdout;
    assert!(json.contains("{\"code\":1,\"kind\":\"useful\",\"name\":\"\\\"f\\\"/\\\"F\\\"\",\"symbol\":9}"), "{json}");
    assert!(json.contains("{\"code\":1,\"kind\":\"useful\",\"name\":\"tone.2\",\"symbol\":11}"));
    assert!(json.contains("{\"code\":1,\"kind\":\"useful\",\"name\":\"%x0D\",\"symbol\":32}"));
}

/// Without old-scan and its letter, those behind them move up by one.
#[test]
fn a_clean_copy() {
    let told = "ropeclover: left out U old-scan \"s\"/\"S\" 0: old-scan is never reached\n\
        ropeclover: left out U \"s\"/\"S\" \"S\" 0: \"s\"/\"S\" is never reached\n\
        ropeclover: left out U \"s\"/\"S\" \"s\" 0: \"s\"/\"S\" is never reached\n";
    let expected = "S 0\nP 0 1 7\nU 1 2\nU 1 3\nU 1 4\nP 2 8 5\nP 3 9 10\nP 4 11 12\nP 5 6 5\nU 5 6\n\
        U 6 33\nU 6 34\nU 6 35\nU 6 36\nU 6 37\nU 6 38\nU 6 39\nU 6 40\nU 6 41\nU 6 42\nU 7 32\nU 7 43\n\
        U 8 44\nU 8 48\nU 9 47\nU 9 51\nP 10 6 6\nU 11 45\nU 11 49\nP 12 6 3\n";
    let ran = run(&["clean", "--abnf"], RADIO_ABNF);
    assert_eq!((ran.bytes, ran.stderr.as_str(), ran.status), (job(expected), told, Some(0)));
    let text = run(&["clean", "--abnf", "--text"], RADIO_ABNF).stdout;
    assert_eq!(job(&text), job(expected));
    assert!(text.contains("name 10 tone.2\n") && text.contains("\nP memory \"m\"/\"M\" memory.2\n"), "{text}");
    run(&["clean", "--abnf", "--text"], GO.as_bytes()).prints(GO_TEXT);
}

#[test]
fn what_writes_jobs_writes_this_one() {
    for words in [&["assemble", "--abnf"][..], &["binarize", "--abnf"]] {
        assert_eq!(run(words, RADIO_ABNF).bytes, job(RADIO_RULES));
    }
    run(&["binarize", "--abnf", "--text"], GO.as_bytes()).prints(GO_TEXT);
    let path = file("abnf-disassemble", "radio.abnf", RADIO_ABNF);
    let text = run(&["read", "--text", &path], b"").stdout;
    run(&["disassemble", &path], b"").prints(&text);
    run(&["disassemble", "--abnf"], GO.as_bytes()).prints(GO_TEXT);
}

/// Texts of both kinds side by side, each answer under the name of its file.
#[test]
fn several_files() {
    let (radio, go) = (file("abnf-radio", "radio.abnf", RADIO_ABNF), file("abnf-go", "go.abnf", GO.as_bytes()));
    let text = file("abnf-text", "go.txt", GO_TEXT.as_bytes());
    let ran = run(&["codes", &go, &text, &radio], b"");
    let parts: Vec<&str> = ran.stdout.split(&format!("{text}:\n")).collect();
    assert_eq!(ran.status, Some(0));
    assert_eq!(parts[0].strip_prefix(&format!("{go}:\n")), parts[1].split(&format!("{radio}:\n")).next());
}
