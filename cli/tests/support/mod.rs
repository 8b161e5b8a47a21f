//! What the tests of the command share: running it, and files to run it on.
#![allow(dead_code)]
use std::ffi::OsStr;
use std::fs;
use std::io::Write;
use std::path::PathBuf;
use std::process::{Command, Output, Stdio};

pub const COMMAND: &str = env!("CARGO_BIN_EXE_ropeclover");

/// The example's text and its job.
pub const RADIO_TEXT: &str = include_str!("../../../examples/radio.txt");
pub const RADIO_JOB: &[u8] = include_bytes!("../../../examples/radio.job");

/// The example with a long body.
pub const MEMORY_TEXT: &str = include_str!("../../../examples/memory.txt");

/// The example in ABNF.
pub const RADIO_ABNF: &[u8] = include_bytes!("../../../examples/radio.abnf");

/// S → a | A A, A → S A | b, and the automaton of (ab)* with more: the specification's job.
pub const REPORT: &str = "S 0\nU 0 32\nP 0 1 1\nP 1 0 1\nU 1 33\nI 0\nF 2\nT 0 32 1\nT 1 33 2\nT 2 32 1\n";

/// What a run of the command leaves.
pub struct Ran {
    pub status: Option<i32>,
    pub stdout: String,
    pub stderr: String,
    /// Standard output where it is no text.
    pub bytes: Vec<u8>,
}

impl Ran {
    pub fn of(output: Output) -> Ran {
        Ran {
            status: output.status.code(),
            stdout: String::from_utf8_lossy(&output.stdout).into_owned(),
            stderr: String::from_utf8_lossy(&output.stderr).into_owned(),
            bytes: output.stdout,
        }
    }

    /// Nothing but this output, and status 0.
    pub fn prints(&self, expected: &str) {
        assert_eq!((self.stdout.as_str(), self.stderr.as_str(), self.status), (expected, "", Some(0)));
    }

    /// This output and status 1, with these parts of the message in this order.
    pub fn refuses(&self, line: &str, parts: &[&str]) {
        assert_eq!((self.stdout.as_str(), self.status), (line, Some(1)), "{}", self.stderr);
        self.says(parts);
    }

    /// These parts stand in the message in this order.
    pub fn says(&self, parts: &[&str]) {
        let mut rest = self.stderr.as_str();
        for part in parts {
            let at = rest.find(part).unwrap_or_else(|| panic!("'{part}' is missing in:\n{}", self.stderr));
            rest = &rest[at + part.len()..];
        }
    }
}

/// Runs the command on an input.
pub fn run<W: AsRef<OsStr>>(words: &[W], input: &[u8]) -> Ran {
    let mut child = Command::new(COMMAND)
        .args(words)
        .stdin(Stdio::piped())
        .stdout(Stdio::piped())
        .stderr(Stdio::piped())
        .spawn()
        .unwrap();
    // A command that does not read to the end closes its input.
    let _ = child.stdin.take().unwrap().write_all(input);
    Ran::of(child.wait_with_output().unwrap())
}

/// A folder of its own for a test.
pub fn folder(test: &str) -> PathBuf {
    let folder = PathBuf::from(env!("CARGO_TARGET_TMPDIR")).join(test);
    let _ = fs::remove_dir_all(&folder);
    fs::create_dir_all(&folder).unwrap();
    folder
}

/// A file of its own for a test, by its path.
pub fn file(test: &str, name: &str, contents: &[u8]) -> String {
    let path = folder(test).join(name);
    fs::write(&path, contents).unwrap();
    path.to_str().unwrap().into()
}

/// The bytes of the job that a text spells.
pub fn job(text: &str) -> Vec<u8> {
    run(&["assemble"], text.as_bytes()).bytes
}
