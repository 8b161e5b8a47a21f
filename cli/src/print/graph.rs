//! An explanation as a Graphviz graph: the form, an arrow for each of its steps, and arrows from transitions to their premises.
use super::listing::{form, sequence};
use super::turns::Turns;
use ropeclover::listing::{Record, Transition};
use ropeclover::text::Names;
use ropeclover::Explanation;
use std::io::{self, Write};

/// Text between quotes in Graphviz's language; a line break in it is its `\n`.
fn quoted(text: &str) -> String {
    format!("\"{}\"", text.replace('\\', "\\\\").replace('"', "\\\"").replace('\n', "\\n"))
}

/// The name of a transition's node, by numbers.
fn node((from, symbol, to): Transition) -> String {
    format!("\"{from} {symbol} {to}\"")
}

fn write_form(output: &mut dyn Write, explanation: &Explanation, names: &Names) -> io::Result<()> {
    let verdict = match explanation.accepted {
        true => format!("accepted by the states {}", sequence(explanation, names)),
        false => "not accepted".into(),
    };
    let label = format!("form {}\n{verdict}", form(&explanation.form, names));
    writeln!(output, "  form [shape=ellipse, label={}];", quoted(&label))?;
    for (at, step) in explanation.steps().into_iter().enumerate() {
        writeln!(output, "  form -> {} [label=\"step {}\"];", node(step), at + 1)?;
    }
    Ok(())
}

/// The transition on one line, the reason on the next, and the turn on a third where it is shown.
fn label(record: &Record, names: &Names, turns: Turns<'_>) -> String {
    let (from, symbol, to) = record.transition;
    let transition = format!("{} {} {}", names.state(from), names.symbol(symbol), names.state(to));
    let line = record.named(names).to_string();
    let reason = line.strip_prefix(&transition).unwrap_or(&line).trim_start();
    format!("{transition}\n{reason}{}", turns.after('\n', record.transition))
}

fn write_record(output: &mut dyn Write, record: &Record, names: &Names, turns: Turns<'_>) -> io::Result<()> {
    let from = node(record.transition);
    writeln!(output, "  {from} [label={}];", quoted(&label(record, names, turns)))?;
    let premises = record.premises();
    let labels: &[&str] = if premises.len() == 1 { &["from"] } else { &["first", "second"] };
    for (premise, label) in premises.into_iter().zip(labels) {
        writeln!(output, "  {from} -> {} [label=\"{label}\"];", node(premise))?;
    }
    Ok(())
}

pub fn write(output: &mut dyn Write, explanation: &Explanation, names: &Names, turns: Turns<'_>) -> io::Result<()> {
    writeln!(output, "digraph derivation {{")?;
    // The first premise stands left of the second.
    writeln!(output, "  graph [ordering=out];")?;
    writeln!(output, "  node [shape=box];")?;
    write_form(output, explanation, names)?;
    explanation.records.iter().try_for_each(|record| write_record(output, record, names, turns))?;
    writeln!(output, "}}")
}
