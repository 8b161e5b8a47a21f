//! The six lines of a report.
use crate::output::yes_no;
use ropeclover::Report;
use std::io::{self, Write};

pub fn write(output: &mut dyn Write, report: &Report) -> io::Result<()> {
    writeln!(output, "states {}", report.states)?;
    writeln!(output, "examined {}", report.examined)?;
    writeln!(output, "joins {}", report.joins)?;
    writeln!(output, "start {}", yes_no(report.start))?;
    writeln!(output, "empty {}", yes_no(report.empty))?;
    writeln!(output, "growing {}", yes_no(report.growing))
}
