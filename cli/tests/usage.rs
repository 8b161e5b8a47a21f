//! The command line: help, version, suggestions, completions, and complaints before any input is read.
mod support;

use std::io::Write;
use std::process::{Command, Stdio};
use support::{folder, run, Ran, COMMAND};

#[test]
fn help_and_version() {
    run(&["--version"], b"").prints(concat!("ropeclover ", env!("CARGO_PKG_VERSION"), "\n"));
    let help = run(&["--help"], b"");
    assert_eq!((help.status, help.stderr.as_str()), (Some(0), ""));
    for part in [
        "report",
        "codes",
        "explain",
        "nightly",
        "assemble",
        "disassemble",
        "binarize",
        "clean",
        "read",
        "completions",
        ".abnf",
        "Exit status: 0",
        "ropeclover-report",
        "scripts",
    ] {
        assert!(help.stdout.contains(part), "{part}");
    }
    for command in
        ["report", "codes", "explain", "nightly", "assemble", "disassemble", "binarize", "clean", "read", "completions"]
    {
        let help = run(&[command, "--help"], b"");
        assert_eq!(help.status, Some(0));
        assert!(help.stdout.contains(&format!("Usage: ropeclover {command}")), "{}", help.stdout);
    }
}

#[test]
fn one_version_everywhere() {
    let version = env!("CARGO_PKG_VERSION");
    let header = include_str!("../../include/ropeclover.h");
    assert!(header.contains(&format!("#define ROPECLOVER_VERSION \"{version}\"\n")));
    for (part, number) in ["MAJOR", "MINOR", "PATCH"].iter().zip(version.split('.')) {
        assert!(header.contains(&format!("#define ROPECLOVER_VERSION_{part} {number}\n")));
    }
    assert!(include_str!("../../rust/Cargo.toml").contains(&format!("\nversion = \"{version}\"\n")));
    assert!(include_str!("../../CHANGELOG.md").contains(&format!("\n## {version}")));
    assert!(include_str!("../../man/ropeclover.1").contains(&format!("ropeclover {version}")));
}

#[test]
fn bad_words_end_with_status_2() {
    for words in [
        &["sing"][..],
        &[],
        &["assemble", "a", "b"],
        &["codes", "--numbers", "--all"],
        &["explain", "--tree", "--dot"],
        &["explain", "--tree", "--format", "json"],
        &["report", "--format", "xml"],
        &["nightly", "--steps", "0"],
        &["nightly", "--jobs", "0"],
        &["nightly", "--seed", "x"],
        &["nightly", "--update"],
        &["binarize", "a", "b"],
        &["clean", "a", "b"],
        &["clean", "--format", "json"],
        &["read", "a", "b"],
        &["read", "--abnf"],
        &["report", "--word", "a", "--word", "b"],
        &["codes", "--word", "a"],
        &["completions", "sh"],
    ] {
        let ran = run(words, b"");
        assert_eq!((ran.status, ran.stdout.as_str()), (Some(2), ""), "{words:?}");
        assert!(!ran.stderr.is_empty());
    }
    run(&["reprot"], b"").says(&["reprot", "report"]);
    let ran = run(&["explain", "-", "memry"], b"S 0\nI 0\n");
    assert_eq!(ran.status, Some(2));
    ran.says(&["'memry' is no symbol: neither a name nor a number from 0 to 63"]);
    assert_eq!(run(&["explain", "-", "256"], b"S 0\nI 0\n").status, Some(2));
    let names = b"name 3 memory\nname 4 tone\nS 3\nI 0\n";
    run(&["explain", "-", "memry"], names).says(&["'memry' is no symbol", "Did you mean 'memory'?"]);
    assert!(!run(&["explain", "-", "xyz"], names).stderr.contains("Did you mean"));
}

/// With its input held open, a command that waited for it would not end.
#[test]
fn bad_words_are_told_before_input_is_read() {
    let mut child = Command::new(COMMAND)
        .args(["nightly", "--bogus"])
        .stdin(Stdio::piped())
        .stdout(Stdio::piped())
        .stderr(Stdio::piped())
        .spawn()
        .unwrap();
    let open = child.stdin.take();
    let ran = Ran::of(child.wait_with_output().unwrap());
    drop(open);
    assert_eq!(ran.status, Some(2));
    ran.says(&["--bogus"]);
}

#[test]
fn completions_know_the_subcommands() {
    for shell in ["bash", "zsh", "fish"] {
        let ran = run(&["completions", shell], b"");
        assert_eq!(ran.status, Some(0));
        for word in ["nightly", "baseline", "binarize", "turns", "clean", "read", "abnf", "word"] {
            assert!(ran.stdout.contains(word), "{word} for {shell}");
        }
    }
}

/// What bash's function offers for the words of a line, the last being the one that is typed.
fn offered(words: &[&str]) -> String {
    let quoted: String = words.iter().map(|word| format!(" '{word}'")).collect();
    let line = format!(
        "source <({COMMAND} completions bash) && COMP_WORDS=({quoted}) && COMP_CWORD={} && _ropeclover ropeclover && echo \"${{COMPREPLY[*]}}\"",
        words.len() - 1
    );
    let ran = Ran::of(Command::new("bash").args(["-c", &line]).output().unwrap());
    assert_eq!((ran.status, ran.stderr.as_str()), (Some(0), ""));
    ran.stdout
}

/// Where a file is due, bash's function offers nothing, so that bash offers files.
#[test]
fn options_are_offered_behind_a_hyphen() {
    for command in ["report", "codes", "explain", "nightly", "assemble", "disassemble", "binarize", "clean", "read"] {
        assert_eq!(offered(&["ropeclover", command, ""]), "\n");
        assert_eq!(offered(&["ropeclover", command, "--help", ""]), "\n");
        assert_eq!(offered(&["ropeclover", command, "--he"]), "--help\n");
        assert!(!offered(&["ropeclover", command, "-"]).contains('['));
    }
    assert_eq!(offered(&["ropeclover", "report", "--format", ""]), "text json\n");
    assert!(offered(&["ropeclover", "completions", ""]).contains("bash elvish fish"));
    assert!(offered(&["ropeclover", ""]).contains("report codes explain"));
    assert!(offered(&["ropeclover", "help", ""]).contains("report codes explain"));
}

/// What an interactive bash makes of a line with tabs, in a folder whose only file is radio.txt.
fn typed(test: &str, line: &str) -> String {
    let folder = folder(test);
    std::fs::write(folder.join("radio.txt"), b"").unwrap();
    let mut child = Command::new("timeout")
        .args(["60", "script", "--quiet", "--return", "--command", "bash --norc --noprofile -i", "/dev/null"])
        .current_dir(&folder)
        .env("TERM", "dumb")
        .stdin(Stdio::piped())
        .stdout(Stdio::piped())
        .spawn()
        .unwrap();
    let typed =
        format!("source <({COMMAND} completions bash); ropeclover() {{ echo \"taken: $*.\"; }}\n{line}\nexit\n");
    let mut keyboard = child.stdin.take().unwrap();
    keyboard.write_all(typed.as_bytes()).unwrap();
    let ran = Ran::of(child.wait_with_output().unwrap());
    drop(keyboard);
    ran.stdout
}

/// A tab where nothing stands yet: the only file is offered.
#[test]
fn files_are_offered_where_nothing_is_typed() {
    let shown = typed("complete", "ropeclover report \t");
    assert!(shown.contains("taken: report radio.txt."), "{shown}");
}

/// A tab where a number, a form or a word is due: no file is offered. Behind the baseline's option one is.
#[test]
fn files_are_offered_for_files_alone() {
    for option in ["--steps", "--seed", "--jobs", "--form", "--word"] {
        assert_eq!(offered(&["ropeclover", "nightly", option, ""]), "\n", "{option}");
    }
    let options = "nightly --steps r\t --seed r\t --jobs r\t --form r\t --word r\t --baseline r\t";
    let shown = typed("complete-options", &format!("ropeclover {options}"));
    let taken = "taken: nightly --steps r --seed r --jobs r --form r --word r --baseline radio.txt.";
    assert!(shown.contains(taken), "{shown}");
}
