//! Why a form is accepted.
use super::{refused, with_word};
use crate::args::{Explain, Format};
use crate::failure::{complain, Failure};
use crate::input::{self, Input};
use crate::print::turns::Turns;
use crate::{form, json, output, print, quote};
use ropeclover::format::start_symbol;
use ropeclover::Workspace;

/// The form that the words spell; the start symbol where there are none.
fn form(options: &Explain, input: &Input) -> Result<Vec<u8>, Failure> {
    if options.symbols.is_empty() {
        return Ok(start_symbol(&input.job).into_iter().collect());
    }
    let unknown = |message| Failure::Usage(format!("error: {message}\n"));
    let text = options.symbols.join(" ");
    form::warnings(&text, &input.names).iter().for_each(|warning| complain(warning));
    form::read(&text, &input.names).map_err(unknown)
}

/// A hint where the first word is no file, as symbols come after one.
fn hint(failure: Failure, options: &Explain) -> Failure {
    match (failure, &options.file) {
        (Failure::File { name, error }, Some(file)) if error.kind() == std::io::ErrorKind::NotFound => {
            let word = quote::visible_word(&file.to_string_lossy());
            Failure::Usage(format!(
                "error: {name}: {error}\n\nSymbols come after the file; '-' is standard input: ropeclover explain - {word}\n"
            ))
        }
        (failure, _) => failure,
    }
}

pub fn explain(options: &Explain) -> Result<(), Failure> {
    let failed = |failure: Failure| hint(failure.in_format(options.format), options);
    let input = input::read(options.file.as_deref(), options.dialect.abnf).map_err(failed)?;
    let mut input = with_word(input, options.word.as_ref())?;
    let form = form(options, &input)?;
    input.form = form::quoted(&form, &input.names);
    let mut memory = Workspace::new();
    let explanation = memory.explain(&input.job, &form).map_err(refused(&input, options.format))?;
    let (names, turns) = (&input.names, Turns::new(&memory, options.turns));
    output::write(|output| match options.format {
        Format::Json => json::write(output, &json::explanation(&explanation, &input, turns)),
        Format::Text if options.tree => print::tree::write(output, &explanation, names, turns),
        Format::Text if options.dot => print::graph::write(output, &explanation, names, turns),
        Format::Text => print::listing::write(output, &explanation, names, turns),
    })
}
