//! An explanation's first lines, and its listing.
use super::turns::Turns;
use crate::output::yes_no;
use ropeclover::listing::Record;
use ropeclover::text::Names;
use ropeclover::Explanation;
use std::io::{self, Write};

/// The form with names, its symbols between blanks, as it may be typed.
pub fn form(form: &[u8], names: &Names) -> String {
    if form.is_empty() {
        return "\"\"".into();
    }
    form.iter().map(|symbol| names.symbol(*symbol)).collect::<Vec<_>>().join(" ")
}

/// The accepting states with names.
pub fn sequence(explanation: &Explanation, names: &Names) -> String {
    explanation.sequence.iter().map(|state| names.state(*state)).collect::<Vec<_>>().join(" ")
}

/// Whether the form is accepted, the form, and the accepting states.
pub fn write_head(output: &mut dyn Write, explanation: &Explanation, names: &Names) -> io::Result<()> {
    writeln!(output, "accepted {}", yes_no(explanation.accepted))?;
    writeln!(output, "form {}", form(&explanation.form, names))?;
    if explanation.accepted {
        writeln!(output, "sequence {}", sequence(explanation, names))?;
    }
    Ok(())
}

/// A record's line.
pub fn line(record: &Record, names: &Names, turns: Turns<'_>) -> String {
    format!("{}{}", record.named(names), turns.after(' ', record.transition))
}

/// A line for each record, after those of its premises.
pub fn write(output: &mut dyn Write, explanation: &Explanation, names: &Names, turns: Turns<'_>) -> io::Result<()> {
    write_head(output, explanation, names)?;
    writeln!(output, "records {}", explanation.records.len())?;
    explanation.records.iter().try_for_each(|record| writeln!(output, "{}", line(record, names, turns)))
}
