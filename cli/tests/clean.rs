//! Clean copies: the job, its text with the names of the input, and what is left out and why. The expected lines are worked out by hand.
mod support;

use support::{file, job, run, Ran, MEMORY_TEXT, RADIO_JOB, RADIO_TEXT, REPORT};

/// 9 -> "F" 4 | 6 8 | "F" 8, 4 -> empty | 9, 6 -> "S", 7 -> 34: of use are 4 and 9. 8 has no rule, 6 is reached beside it alone, and 7 never.
const TEXT: &str = "name 9 command\nname 4 tail\nname 6 scan\nname 7 old\nname 8 gone\nname 32 \"F\"\nname 33 \"S\"\nstate 0 begin\n\
    S command\nP command \"F\" gone\nP command scan gone\nP command \"F\" tail\nU tail command\nE tail\nU scan \"S\"\nU old 34\n\
    I begin\nF begin\nT begin \"F\" begin\n";

/// The copy's text: tail becomes 0, command 1.
const COPY: &str =
    "name 0 tail\nname 1 command\nname 32 \"F\"\nS command 0 0\nE tail 0 0\nU tail command 0\nP command \"F\" tail\n";

/// By the ranks of the rules: heads 6, 7 and 9, and of the last a variable before a terminal.
const LEFT_OUT: &str = "ropeclover: left out U scan \"S\" 0: scan is never reached\n\
    ropeclover: left out U old 34 0: old is never reached\n\
    ropeclover: left out P command scan gone: gone derives no string\n\
    ropeclover: left out P command \"F\" gone: gone derives no string\n\
    ropeclover: left out T, I and F records: 3\n";

/// Status 0, this output and these lines on standard error.
fn writes(ran: &Ran, expected: &[u8], told: &str) {
    assert_eq!((ran.stderr.as_str(), ran.status), (told, Some(0)));
    assert_eq!(ran.bytes, expected, "{}", ran.stdout);
}

#[test]
fn the_job_of_a_copy() {
    let expected = job("S 1\nE 0\nU 0 1\nP 1 32 0\n");
    writes(&run(&["clean"], TEXT.as_bytes()), &expected, LEFT_OUT);
    let path = file("clean", "job.txt", TEXT.as_bytes());
    writes(&run(&["clean", &path], b""), &expected, LEFT_OUT);
    // A job has no names.
    let numbers =
        "ropeclover: left out U 6 33 0: 6 is never reached\nropeclover: left out U 7 34 0: 7 is never reached\n\
        ropeclover: left out P 9 6 8: 8 derives no string\nropeclover: left out P 9 32 8: 8 derives no string\n\
        ropeclover: left out T, I and F records: 3\n";
    writes(&run(&["clean", "-"], &job(TEXT)), &expected, numbers);
    // Nothing is left out of a copy.
    writes(&run(&["clean"], &expected), &expected, "");
}

/// Names go with their symbols; those of symbols and states that the copy does not have are left out with them.
#[test]
fn the_text_of_a_copy() {
    writes(&run(&["clean", "--text"], TEXT.as_bytes()), COPY.as_bytes(), LEFT_OUT);
    run(&["clean", "--text"], COPY.as_bytes()).prints(COPY);
    assert_eq!(job(COPY), run(&["clean"], TEXT.as_bytes()).bytes);
    let numbers = run(&["clean", "--text"], &job(TEXT));
    assert_eq!(numbers.stdout, "S 1 0 0\nE 0 0 0\nU 0 1 0\nP 1 32 0\n");
}

/// The same rules in another order, without an automaton, have the same copy.
#[test]
fn texts_that_say_the_same() {
    let grammar = TEXT.lines().filter(|line| !["I ", "F ", "T ", "state"].iter().any(|kind| line.starts_with(kind)));
    let reversed: Vec<&str> = grammar.rev().collect();
    let ran = run(&["clean", "--text"], reversed.join("\n").as_bytes());
    writes(&ran, COPY.as_bytes(), LEFT_OUT.strip_suffix("ropeclover: left out T, I and F records: 3\n").unwrap());
}

#[test]
fn the_examples() {
    let told = "ropeclover: left out U old-scan \"S\" 0: old-scan is never reached\nropeclover: left out T, I and F records: 7\n";
    let ran = run(&["clean"], RADIO_TEXT.as_bytes());
    assert_eq!(ran.stderr, told);
    assert_eq!(ran.bytes, run(&["clean"], RADIO_JOB).bytes);
    // The start symbol, fourteen of the fifteen rules.
    assert_eq!(ran.bytes.len(), 4 * 15);
    writes(
        &run(&["clean"], REPORT.as_bytes()),
        &job("S 0\nP 0 1 1\nU 0 32\nP 1 0 1\nU 1 33\n"),
        "ropeclover: left out T, I and F records: 5\n",
    );
}

/// The long rule's tails are 2, 3 and 4, which are named by what they stand for.
#[test]
fn long_bodies_are_split_first() {
    let expected = "name 0 memory\nname 1 digit\nname 2 memory.2\nname 3 memory.3\nname 4 memory.4\n\
        name 32 \"M\"\nname 33 \"T\"\nname 34 \"0-9\"\n\
        S memory 0 0\nP memory \"M\" memory.2\nU digit \"0-9\" 0\nP memory.2 digit memory.3\n\
        P memory.3 \"T\" memory.4\nP memory.4 digit digit\n";
    let told = "ropeclover: left out T, I and F records: 7\n";
    writes(&run(&["clean", "--text"], MEMORY_TEXT.as_bytes()), expected.as_bytes(), told);
    writes(&run(&["clean"], &job(MEMORY_TEXT)), &job(expected), told);
    // Free are 1 and 2, for the tails of the second rule, and 3 has no rule. The head has no name, and so have the tails.
    let text = "name 1 taken\nname 3 gone\nS 0\nE 0\nL 0 32 0 32 gone\nI 0\n";
    let told = "ropeclover: <stdin>: no record uses the name taken\n\
        ropeclover: left out P 0 32 1: 1 derives no string\nropeclover: left out P 1 0 2: 2 derives no string\n\
        ropeclover: left out P 2 32 gone: gone derives no string\nropeclover: left out T, I and F records: 1\n";
    writes(&run(&["clean", "--text"], text.as_bytes()), b"S 0 0 0\nE 0 0 0\n", told);
}

/// The start symbol keeps its name, as it is in the copy.
#[test]
fn an_empty_language() {
    let text = "name 7 command\nname 3 part\nS command\nP command part 8\nU part 32\n";
    let told = "ropeclover: the language is empty, so the copy has no rules\n\
        ropeclover: left out U part 32 0: part is never reached\n\
        ropeclover: left out P command part 8: 8 derives no string\n";
    writes(&run(&["clean"], text.as_bytes()), b"S\0\0\0", told);
    writes(&run(&["clean", "--text"], text.as_bytes()), b"name 0 command\nS command 0 0\n", told);
    let told = "ropeclover: the language is empty, so the copy has no rules\n";
    writes(&run(&["clean", "--text"], b"S 31\n"), b"S 0 0 0\n", told);
}

/// As other subcommands refuse, but that no I record is needed; of a long text one is.
#[test]
fn refused_input() {
    run(&["clean"], b"U 0 32\nI 0\n").refuses("refused 8 at 2\n", &["<stdin>: no S record", "a record 'S 0'"]);
    run(&["clean", "--text"], b"S 0\nU 0 64\n")
        .refuses("refused 4 at 1\n", &["2 | U 0 64\n  |     ^^ field 2 of a U record"]);
    run(&["clean"], &job(REPORT)[..39]).refuses("refused 1 at 9\n", &["left over after 9 whole records"]);
    run(&["clean"], b"S\0\0\0S\x01\0\0").refuses("refused 6 at 1\n", &["0 | S 0 0 0\n", "1 | S 1 0 0\n"]);
    run(&["clean"], b"S 0\nL 0\n").refuses("refused 9 at 2\n", &["<stdin>: no I record"]);
    run(&["clean"], b"S 0\nfoo\n").refuses("", &["'foo' is no kind of record"]);
    run(&["clean"], b"S 0\nE 0\n").prints("S\0\0\0E\0\0\0");
}

/// The other subcommands take the copy; those on an automaton need an I record first.
#[test]
fn a_copy_is_a_job() {
    let copy = run(&["clean"], TEXT.as_bytes()).bytes;
    run(&["codes"], &copy).prints("useful: 3\n  0\n  1\n  32\nderives no string: 0\nnever reached: 0\n");
    run(&["report"], &copy).refuses("refused 9 at 4\n", &["no I record"]);
    let report = run(&["report"], format!("{COPY}I 0\n").as_bytes());
    assert!(report.stdout.ends_with("empty no\ngrowing yes\n"), "{}", report.stdout);
}
