//! How a subcommand ends other than well, what it says then, and its exit status.
use crate::args::Format;
use crate::input::{Input, Unreadable};
use crate::{json, output, quote, refused};
use ropeclover::Refusal;
use std::io::{self, Write};

pub enum Failure {
    /// The job is refused: the line goes to standard output, what to mend to standard error.
    Refused { refusal: Refusal, input: Box<Input>, format: Format },
    /// The input is no text and no job.
    Unreadable { unreadable: Unreadable, format: Format },
    /// Two runs differ.
    Differs(String),
    /// All is told already; the status is left.
    Told(u8),
    /// A file cannot be read or written.
    File { name: String, error: io::Error },
    /// Standard output cannot be written.
    Output(io::Error),
    /// The command line is wrong.
    Usage(String),
}

/// A job was refused, a text is malformed, or two runs differ.
pub const NO: u8 = 1;
/// Bad usage, or input or output failed.
const TROUBLE: u8 = 2;

/// A line on standard error. Where that fails too, only the status is left to tell.
pub fn complain(message: &str) {
    let _ = writeln!(io::stderr(), "ropeclover: {message}");
}

impl From<Unreadable> for Failure {
    fn from(unreadable: Unreadable) -> Self {
        Failure::Unreadable { unreadable, format: Format::Text }
    }
}

impl Failure {
    /// The failure of a subcommand that answers in a format.
    pub fn in_format(self, format: Format) -> Self {
        match self {
            Failure::Unreadable { unreadable, .. } => Failure::Unreadable { unreadable, format },
            Failure::Refused { refusal, input, .. } => Failure::Refused { refusal, input, format },
            other => other,
        }
    }

    /// Says what is wrong and gives the exit status. The prefix stands before a refusal on standard output, as before an answer.
    pub fn tell(self, prefix: &str) -> u8 {
        match self {
            Failure::Refused { refusal, input, format } => tell_refused(prefix, refusal, &input, format),
            Failure::Unreadable { unreadable, format } => tell_unreadable(prefix, &unreadable, format),
            Failure::Differs(message) => {
                complain(&message);
                NO
            }
            Failure::Told(status) => status,
            Failure::File { name, error } => {
                complain(&format!("{name}: {error}"));
                TROUBLE
            }
            Failure::Output(error) => {
                complain(&format!("standard output: {error}"));
                TROUBLE
            }
            Failure::Usage(message) => {
                let _ = io::stderr().write_all(quote::visible(&message).as_bytes());
                TROUBLE
            }
        }
    }
}

fn tell_unreadable(prefix: &str, unreadable: &Unreadable, format: Format) -> u8 {
    unreadable.tell();
    let written = match format {
        Format::Text => Ok(()),
        Format::Json => output::write(|output| json::write(output, &json::unreadable(unreadable))),
    };
    written.map_or_else(|failure| failure.tell(prefix), |()| NO)
}

fn tell_refused(prefix: &str, refusal: Refusal, input: &Input, format: Format) -> u8 {
    let written = output::write(|output| match format {
        Format::Text => writeln!(output, "{prefix}refused {} at {}", refusal.number(), refusal.place()),
        Format::Json => json::write(output, &json::refusal(refusal, input)),
    });
    refused::explain(refusal, input);
    match written {
        Ok(()) => NO,
        Err(failure) => failure.tell(prefix),
    }
}
