//! An explanation as indented trees, one for each step of the form.
use super::listing::{line, write_head};
use super::turns::Turns;
use ropeclover::listing::{Record, Transition};
use ropeclover::text::Names;
use ropeclover::Explanation;
use std::collections::{HashMap, HashSet};
use std::io::{self, Write};

/// The deepest indentation; below it the depth is a number, as chains of reasons can be tens of thousands long.
const DEEPEST: usize = 40;

/// The blanks before a line, and its depth where it is too deep for blanks.
fn margin(depth: usize) -> String {
    if depth <= DEEPEST {
        return "  ".repeat(depth);
    }
    format!("{}[{depth}] ", "  ".repeat(DEEPEST))
}

/// Writes the tree of each step. A transition's premises stand under it where it comes first, and are not repeated.
pub fn write(output: &mut dyn Write, explanation: &Explanation, names: &Names, turns: Turns<'_>) -> io::Result<()> {
    write_head(output, explanation, names)?;
    let records: HashMap<Transition, &Record> = explanation.records.iter().map(|r| (r.transition, r)).collect();
    let mut shown: HashSet<Transition> = HashSet::new();
    // The rest of the walk, last first, each with its depth: no recursion, for the same reason.
    let mut rest: Vec<(usize, Transition)> = explanation.steps().into_iter().rev().map(|step| (0, step)).collect();
    while let Some((depth, transition)) = rest.pop() {
        let Some(record) = records.get(&transition) else { continue };
        let premises = record.premises();
        let repeated = !premises.is_empty() && !shown.insert(transition);
        let note = if repeated { " (shown above)" } else { "" };
        writeln!(output, "{}{}{note}", margin(depth), line(record, names, turns))?;
        if !repeated {
            rest.extend(premises.into_iter().rev().map(|premise| (depth + 1, premise)));
        }
    }
    Ok(())
}
