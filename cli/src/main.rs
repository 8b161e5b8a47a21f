//! The command `ropeclover`.
mod abnf;
mod args;
mod commands;
mod failure;
mod form;
mod input;
mod json;
mod nightly;
mod output;
mod print;
mod quote;
mod refused;
mod word;

use args::{Args, Command};
use clap::Parser;
use failure::Failure;
use std::process::ExitCode;

/// Runs a subcommand, which writes to standard output.
fn run(command: &Command) -> Result<(), Failure> {
    match command {
        Command::Report(options) => commands::report(options),
        Command::Codes(options) => commands::codes(options),
        Command::Explain(options) => commands::explain(options),
        Command::Nightly(options) => nightly::nightly(options),
        Command::Assemble(options) => commands::assemble(options),
        Command::Disassemble(options) => commands::disassemble(options),
        Command::Binarize(options) => commands::binarize(options),
        Command::Clean(options) => commands::clean(options),
        Command::Read(options) => commands::read(options),
        Command::Completions(options) => commands::completions(options),
    }
}

fn main() -> ExitCode {
    output::end_on_broken_pipe();
    let outcome = match Args::try_parse() {
        Ok(args) => run(&args.command),
        Err(error) if error.use_stderr() => Err(Failure::Usage(error.render().to_string())),
        Err(help) => output::write_help(&help),
    };
    match outcome {
        Ok(()) => ExitCode::SUCCESS,
        Err(failure) => ExitCode::from(failure.tell("")),
    }
}
