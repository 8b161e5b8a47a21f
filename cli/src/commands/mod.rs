//! The subcommands, but for nightly: each reads its input, calls the library, and writes the answer.
mod completions;
mod convert;
mod explain;

use crate::args::{Codes, Dialect, Format, Report};
use crate::failure::{complain, Failure};
use crate::input::{self, Input};
use crate::word::Word;
use crate::{json, output, print};
use ropeclover::{Refusal, Workspace};
use serde_json::Value;
use std::path::PathBuf;

pub use completions::completions;
pub use convert::{assemble, binarize, clean, disassemble, read};
pub use explain::explain;

/// A refusal with what it speaks of.
fn refused(input: &Input, format: Format) -> impl FnOnce(Refusal) -> Failure + '_ {
    move |refusal| Failure::Refused { refusal, input: Box::new(input.clone()), format }
}

/// The input with the automaton of a word, where one is asked about. Why the answer is no for a missing character is told.
fn with_word(input: Input, word: Option<&Word>) -> Result<Input, Failure> {
    let Some(word) = word else { return Ok(input) };
    let input = input.with_word(word)?;
    let reason = input.word.as_ref().and_then(|asked| asked.reason());
    reason.iter().for_each(|reason| complain(&format!("{}: {reason}", input.name)));
    Ok(input)
}

/// Answers about each file, or standard input where none is named; where there are several, each under a heading with its name. A file that fails is
/// told, and the others are answered all the same.
fn each(
    files: &[PathBuf],
    dialect: Dialect,
    answer: impl Fn(Input, &Heading) -> Result<(), Failure>,
    format: Format,
) -> Result<(), Failure> {
    let mut status = 0;
    for file in input::files(files) {
        let heading = Heading((files.len() > 1).then(|| input::name(file)));
        let outcome = input::read(file, dialect.abnf).and_then(|input| answer(input, &heading));
        status = status.max(match outcome {
            Ok(()) => 0,
            Err(Failure::Output(error)) => return Err(Failure::Output(error)),
            Err(failure) => failure.in_format(format).tell(&heading.line()),
        });
    }
    match status {
        0 => Ok(()),
        status => Err(Failure::Told(status)),
    }
}

/// The name of the file that an answer is about, where there are several.
struct Heading(Option<String>);

impl Heading {
    /// The line before an answer in lines.
    fn line(&self) -> String {
        self.0.as_ref().map_or_else(String::new, |name| format!("{name}:\n"))
    }

    /// An answer that is an object, with the name.
    fn within(&self, mut answer: Value) -> Value {
        if let Some(name) = &self.0 {
            answer["file"] = name.as_str().into();
        }
        answer
    }
}

pub fn report(options: &Report) -> Result<(), Failure> {
    let answer = |input: Input, heading: &Heading| {
        let input = with_word(input, options.word.as_ref())?;
        let report = Workspace::new().report(&input.job).map_err(refused(&input, options.format))?;
        output::write(|output| match options.format {
            Format::Text => write!(output, "{}", heading.line()).and_then(|()| print::report::write(output, &report)),
            Format::Json => json::write(output, &heading.within(json::report(&report, &input))),
        })
    };
    each(&options.files, options.dialect, answer, options.format)
}

pub fn codes(options: &Codes) -> Result<(), Failure> {
    let answer = |input: Input, heading: &Heading| {
        let (_, codes) = Workspace::new().verdicts(&input.job).map_err(refused(&input, options.format))?;
        output::write(|output| {
            if options.format == Format::Json {
                return json::write(output, &heading.within(json::codes(&codes, &input.names)));
            }
            write!(output, "{}", heading.line())?;
            match options.numbers {
                true => print::codes::write_numbers(output, &codes),
                false => print::codes::write(output, &codes, &input.names, options.all),
            }
        })
    };
    each(&options.files, options.dialect, answer, options.format)
}
