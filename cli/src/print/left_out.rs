//! What a clean copy leaves out.
use super::codes::kind;
use crate::input::Input;
use ropeclover::text::{spelling, Names};
use ropeclover::{CleanCopy, LeftOut};

/// A rule, and the symbol that it is left out for.
fn rule(left_out: &LeftOut, names: &Names) -> String {
    let (words, symbol) = (spelling(left_out.rule, names), names.symbol(left_out.symbol));
    let is = if left_out.code == 3 { "is " } else { "" };
    format!("left out {}: {symbol} {is}{}", words.join(" "), kind(left_out.code))
}

/// A line for each rule by its rank, one before them for an empty language, and one after them for the records of the automaton.
pub fn lines(copy: &CleanCopy, input: &Input) -> Vec<String> {
    let mut lines = Vec::new();
    if copy.empty {
        lines.push("the language is empty, so the copy has no rules".into());
    }
    lines.extend(copy.left_out.iter().map(|left_out| rule(left_out, &input.names)));
    let records = input.job.chunks(4).filter(|record| b"TIF".contains(&record[0])).count();
    if records > 0 {
        lines.push(format!("left out T, I and F records: {records}"));
    }
    lines
}
