//! The same closure as Datalog, for tools that may be installed. Each returns the number of transitions it finds.
use crate::states;
use std::fmt::Write as _;
use std::io::Write as _;
use std::process::{Command, Stdio};

fn installed(tool: &str) -> bool {
    Command::new(tool).arg("--version").stdout(Stdio::null()).stderr(Stdio::null()).status().is_ok_and(|s| s.success())
}

fn output(tool: &str, words: &[&str], program: &str) -> Option<String> {
    let mut child = Command::new(tool)
        .args(words)
        .stdin(Stdio::piped())
        .stdout(Stdio::piped())
        .stderr(Stdio::null())
        .spawn()
        .ok()?;
    child.stdin.take()?.write_all(program.as_bytes()).ok()?;
    let out = child.wait_with_output().ok()?;
    String::from_utf8(out.stdout).ok()
}

pub fn gringo(job: &[u8]) -> Option<u64> {
    if !installed("gringo") {
        return None;
    }
    let mut program = String::new();
    for r in job.chunks(4) {
        let (a, b, c) = (r[1], r[2], r[3]);
        match r[0] {
            b'T' => writeln!(program, "t({a},{b},{c})."),
            b'E' => writeln!(program, "t(Q,{a},Q) :- Q = 0..{}.", states::count(job) - 1),
            b'U' => writeln!(program, "t(Q,{a},R) :- t(Q,{b},R)."),
            b'P' => writeln!(program, "t(Q,{a},R) :- t(Q,{b},M), t(M,{c},R)."),
            _ => Ok(()),
        }
        .ok()?;
    }
    let text = output("gringo", &["--text"], &program)?;
    Some(text.lines().filter(|line| line.starts_with("t(")).count() as u64)
}

pub fn swipl(job: &[u8]) -> Option<u64> {
    if !installed("swipl") {
        return None;
    }
    let mut program = String::from(":- table t/3.\n");
    let mut facts = String::new();
    let mut given = false;
    for r in job.chunks(4) {
        let (a, b, c) = (r[1], r[2], r[3]);
        match r[0] {
            b'T' => {
                given = true;
                writeln!(facts, "g({a},{b},{c}).")
            }
            b'E' => writeln!(program, "t(Q,{a},Q) :- between(0,{},Q).", states::count(job) - 1),
            b'U' => writeln!(program, "t(Q,{a},R) :- t(Q,{b},R)."),
            b'P' => writeln!(program, "t(Q,{a},R) :- t(Q,{b},M), t(M,{c},R)."),
            _ => Ok(()),
        }
        .ok()?;
    }
    if given {
        program.push_str("t(Q,X,R) :- g(Q,X,R).\n");
    }
    program.push_str(&facts);
    program.push_str(":- aggregate_all(count, t(_,_,_), N), writeln(N), halt.\n");
    output("swipl", &["-q", "-f", "/dev/stdin"], &program)?.trim().parse().ok()
}
