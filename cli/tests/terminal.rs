//! The command on a terminal, which `script` plays, and off it.
mod support;

use std::io::Write;
use std::process::{Command, Stdio};
use support::{file, run, Ran, COMMAND, RADIO_TEXT};

/// Runs the command with its input, output and messages on a terminal, whose user types the end of input at once. The time limit only keeps a
/// command that waits for more from holding up the tests.
fn on_a_terminal(words: &str, environment: &[(&str, &str)]) -> Ran {
    let mut child = Command::new("timeout")
        .args(["60", "script", "--quiet", "--return", "--command", &format!("{COMMAND} {words}"), "/dev/null"])
        .env("TERM", "xterm")
        .envs(environment.iter().copied())
        .stdin(Stdio::piped())
        .stdout(Stdio::piped())
        .stderr(Stdio::piped())
        .spawn()
        .unwrap();
    let mut keyboard = child.stdin.take().unwrap();
    keyboard.write_all(b"\x04").unwrap();
    let ran = Ran::of(child.wait_with_output().unwrap());
    drop(keyboard);
    ran
}

#[test]
fn messages_are_coloured_on_a_terminal_alone() {
    let path = file("colour", "job.txt", b"S 0\nI 0\nT 0 64 0\n");
    let terminal = on_a_terminal(&format!("report {path}"), &[]);
    assert_eq!(terminal.status, Some(1));
    assert!(terminal.stdout.contains("refused 4 at 2") && terminal.stdout.contains("\x1b["));
    let plain = on_a_terminal(&format!("report {path}"), &[("NO_COLOR", "1")]);
    assert!(plain.stdout.contains("a field is outside its class") && !plain.stdout.contains("\x1b["));
    assert!(!run(&["report", &path], b"").stderr.contains('\x1b'));
}

#[test]
fn progress_is_shown_on_a_terminal_alone() {
    let path = file("progress", "radio.txt", RADIO_TEXT.as_bytes());
    let terminal = on_a_terminal(&format!("nightly --steps 1 {path} {path}"), &[]);
    assert_eq!(terminal.status, Some(0));
    assert!(
        terminal.stdout.contains("/2 files [") && terminal.stdout.contains("alike: states 6"),
        "{}",
        terminal.stdout
    );
    assert_eq!(run(&["nightly", &path, &path], b"").stderr, "");
}

#[test]
fn waiting_for_the_terminal_is_said() {
    let terminal = on_a_terminal("report", &[]);
    assert!(terminal.stdout.contains("ropeclover: reading a job or its text from the terminal"), "{}", terminal.stdout);
    assert!(terminal.stdout.contains("refused 8 at 0"));
    let terminal = on_a_terminal("read", &[]);
    assert!(terminal.stdout.contains("ropeclover: reading ABNF text from the terminal"), "{}", terminal.stdout);
    assert!(terminal.stdout.contains("refused 16 at 0"));
    assert!(!run(&["report"], b"").stderr.contains("terminal"));
}
