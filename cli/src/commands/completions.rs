//! Completions of the shells.
use crate::args::{Args, Completions};
use crate::failure::Failure;
use crate::output;
use clap::{CommandFactory, ValueHint};
use clap_complete::Shell;

/// A line of options without the signs for words that are none, as [FILE].
fn without_signs(line: &str) -> String {
    let (start, words) = line.split_once('"').unwrap_or((line, ""));
    let options: Vec<&str> = words.trim_end_matches('"').split(' ').filter(|word| !word.starts_with('[')).collect();
    format!("{start}\"{}\"", options.join(" "))
}

/// The options whose value is no file, as the script for bash has them before their cases: `--steps)`.
fn without_files() -> Vec<String> {
    let command = Args::command();
    let options = command.get_subcommands().flat_map(|subcommand| subcommand.get_arguments());
    let other = options.filter(|option| option.get_value_hint() == ValueHint::Other);
    other.filter_map(|option| Some(format!("--{})", option.get_long()?))).collect()
}

/// The script for bash with files where they are due, and nowhere else. As it is made, it offers options and '[FILE]' as long as nothing is typed. Where a
/// subcommand takes files, options are now offered behind a hyphen alone, and nothing else is, so that bash offers files, as the script's last line asks
/// it to. Behind an option whose value is no file, bash is told not to.
fn with_files(script: &str) -> String {
    let mut mended = String::new();
    let without_files = without_files();
    let (mut takes_files, mut is_behind, mut is_other) = (false, false, false);
    for line in script.lines() {
        let words = line.trim_start();
        if words.starts_with("opts=\"") {
            takes_files = words.contains("[FILE]");
            is_behind = false;
            mended.push_str(&without_signs(line));
        } else if takes_files && words.starts_with("if [[ ${cur} == -*") {
            mended.push_str(&line.replace(" || ${COMP_CWORD} -eq 2", ""));
        } else if is_other && words.starts_with("COMPREPLY=") {
            // Only bash itself knows the command that is completed; a script that calls the function has none.
            let indent = &line[..line.len() - words.len()];
            mended.push_str(&format!("{indent}compopt +o bashdefault +o default 2>/dev/null\n{indent}COMPREPLY=()"));
        } else if takes_files && is_behind && words.starts_with("COMPREPLY=") {
            mended.push_str(&line.replace(words, "COMPREPLY=()"));
        } else {
            mended.push_str(line);
        }
        is_behind |= words == "esac";
        is_other = without_files.iter().any(|option| option == words);
        mended.push('\n');
    }
    mended
}

pub fn completions(options: &Completions) -> Result<(), Failure> {
    let mut script = Vec::new();
    clap_complete::generate(options.shell, &mut Args::command(), "ropeclover", &mut script);
    if options.shell == Shell::Bash {
        script = with_files(&String::from_utf8_lossy(&script)).into_bytes();
    }
    output::write(|output| output.write_all(&script))
}
