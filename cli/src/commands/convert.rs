//! Jobs from text, and back; from long jobs and ABNF text; and clean copies.
use super::refused;
use crate::args::{Assemble, Binarize, Clean, Disassemble, Format, Read};
use crate::failure::{complain, Failure};
use crate::input::{self, Input, Unreadable};
use crate::{output, print};
use ropeclover::text::{self, FormLine, Names};
use ropeclover::Workspace;

/// The text of a job's or a long job's bytes.
fn printed(input: &Input, job: &[u8], names: &Names) -> Result<Vec<u8>, Failure> {
    let unreadable = |record| Unreadable::NoSpelling { name: input.name.clone(), record };
    Ok(text::print(job, names).map_err(unreadable)?.into_bytes())
}

pub fn assemble(options: &Assemble) -> Result<(), Failure> {
    let input = input::read_text_only(options.file.as_deref(), options.dialect.abnf)?;
    output::write(|output| output.write_all(input.bytes()))
}

pub fn disassemble(options: &Disassemble) -> Result<(), Failure> {
    let input = input::read_job_only(options.file.as_deref(), options.dialect.abnf)?;
    let text = printed(&input, input.bytes(), &input.names)?;
    output::write(|output| output.write_all(&text))
}

/// The form lines of an input as they stand, but for one with the name of a variable that a long rule took: it would be unknown.
fn form_lines(input: &Input) -> String {
    let still = |form: &&FormLine| input.names.form(&form.text).as_ref() == Ok(&form.symbols);
    input.forms.iter().filter(still).map(|form| format!("form {}\n", form.text)).collect()
}

pub fn binarize(options: &Binarize) -> Result<(), Failure> {
    let input = input::read_long(options.file.as_deref(), options.dialect.abnf)?;
    let written = match options.text {
        true => [printed(&input, &input.job, &input.names)?, form_lines(&input).into_bytes()].concat(),
        false => input.job,
    };
    output::write(|output| output.write_all(&written))
}

pub fn clean(options: &Clean) -> Result<(), Failure> {
    let input = input::read(options.file.as_deref(), options.dialect.abnf)?;
    let copy = Workspace::new().clean(&input.job).map_err(refused(&input, Format::Text))?;
    let text = || printed(&input, &copy.job, &copy.names(&input.names));
    let written = if options.text { text()? } else { copy.job.clone() };
    output::write(|output| output.write_all(&written))?;
    print::left_out::lines(&copy, &input).iter().for_each(|line| complain(line));
    Ok(())
}

pub fn read(options: &Read) -> Result<(), Failure> {
    let input = input::read_abnf(options.file.as_deref())?;
    let written = match options.text {
        true => printed(&input, &input.job, &input.names)?,
        false => input.job,
    };
    output::write(|output| output.write_all(&written))
}
