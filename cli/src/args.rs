//! The command line.
use crate::word::Word;
use clap::{Parser, Subcommand, ValueEnum, ValueHint};
use std::path::PathBuf;

const AFTER_HELP: &str = "\
FILE holds a job or its text (a job has zero bytes, a text has none); '-' or none is standard input. A text with L lines, and a long job, are \
written as an ordinary job first. A FILE whose name ends in .abnf, and with --abnf any, is ABNF text.

Exit status: 0 done; 1 the job is refused, the text is malformed, or two runs differ; 2 bad usage, or input or output failed.

The proved programs ropeclover-report, ropeclover-codes and ropeclover-explain print the same answers for a job on standard input, but end \
with status 0 whatever they print: scripts should use this command.";

/// Tells what a context-free grammar can say
#[derive(Debug, Parser)]
#[command(name = "ropeclover", version, after_help = AFTER_HELP, arg_required_else_help = true)]
pub struct Args {
    #[command(subcommand)]
    pub command: Command,
}

#[derive(Debug, Subcommand)]
pub enum Command {
    Report(Report),
    Codes(Codes),
    Explain(Explain),
    Nightly(Nightly),
    Assemble(Assemble),
    Disassemble(Disassemble),
    Binarize(Binarize),
    Clean(Clean),
    Read(Read),
    Completions(Completions),
}

/// How an answer is written.
#[derive(Clone, Copy, Debug, Default, PartialEq, Eq, ValueEnum)]
pub enum Format {
    /// Lines for people
    #[default]
    Text,
    /// One JSON object
    Json,
}

/// The option for files that are ABNF text though their names do not say so.
#[derive(Clone, Copy, Debug, clap::Args)]
pub struct Dialect {
    /// FILE is ABNF text, whatever its name
    #[arg(long)]
    pub abnf: bool,
}

/// Report whether the start symbol is accepted, the language empty, growing
#[derive(Debug, clap::Args)]
pub struct Report {
    /// Jobs, their texts or ABNF texts
    #[arg(value_name = "FILE")]
    pub files: Vec<PathBuf>,
    #[command(flatten)]
    pub dialect: Dialect,
    /// Of ABNF text: the word that the automaton reads, as 'FA;' or 'FA%x0D', of up to 31 characters
    #[arg(long, value_name = "TEXT", value_hint = ValueHint::Other)]
    pub word: Option<Word>,
    /// How to write the answer
    #[arg(long, value_enum, default_value_t)]
    pub format: Format,
}

/// List the symbols by kind: useful, derives no string, never reached
#[derive(Debug, clap::Args)]
pub struct Codes {
    /// Jobs, their texts or ABNF texts
    #[arg(value_name = "FILE")]
    pub files: Vec<PathBuf>,
    #[command(flatten)]
    pub dialect: Dialect,
    /// List the symbols that no rule names, too
    #[arg(long)]
    pub all: bool,
    /// Print 64 lines 'SYMBOL CODE' instead: 0 not named, 1 useful, 2 derives no string, 3 never reached
    #[arg(long, conflicts_with_all = ["all", "format"])]
    pub numbers: bool,
    /// How to write the answer
    #[arg(long, value_enum, default_value_t)]
    pub format: Format,
}

/// Say whether a form is accepted, and step by step why
#[derive(Debug, clap::Args)]
#[command(after_help = "\
A SYMBOL is a name of the text, a character, a string in double quotes that the shell must leave alone, '\"M5\"', or a number as '#5'. A string \
that is no name itself stands for its characters; '\"\"' is the empty form. A character is the symbol with this name, in quotes, or the one whose name \
is a range that holds it, as \"0-9\". Without a SYMBOL the start symbol is explained. To read standard input, write '-'.")]
pub struct Explain {
    /// A job, its text or ABNF text
    pub file: Option<PathBuf>,
    /// The symbols of the form
    #[arg(value_name = "SYMBOL")]
    pub symbols: Vec<String>,
    #[command(flatten)]
    pub dialect: Dialect,
    /// Of ABNF text: the word that the automaton reads, as 'FA;' or 'FA%x0D', of up to 31 characters
    #[arg(long, value_name = "TEXT", value_hint = ValueHint::Other)]
    pub word: Option<Word>,
    /// Print an indented tree for each step of the form
    #[arg(long, conflicts_with_all = ["dot", "format"])]
    pub tree: bool,
    /// Print a Graphviz graph
    #[arg(long, conflicts_with = "format")]
    pub dot: bool,
    /// Show the turn of each transition: how many were examined when it was learned, 0 where it was there from the start
    #[arg(long)]
    pub turns: bool,
    /// How to write the answer
    #[arg(long, value_enum, default_value_t)]
    pub format: Format,
}

/// Check jobs twice, plain and with their records shuffled; fail if the two differ
#[derive(Debug, clap::Args)]
pub struct Nightly {
    /// Jobs, their texts or ABNF texts
    #[arg(value_name = "FILE")]
    pub files: Vec<PathBuf>,
    #[command(flatten)]
    pub dialect: Dialect,
    /// Of ABNF texts: a word that the automaton reads, as 'FA;' or 'FA%x0D', of up to 31 characters; may be repeated
    #[arg(long = "word", value_name = "TEXT", value_hint = ValueHint::Other)]
    pub words: Vec<Word>,
    /// Steps made at a time
    #[arg(long, value_name = "N", default_value_t = 16384, value_parser = clap::value_parser!(u64).range(1..), value_hint = ValueHint::Other)]
    pub steps: u64,
    /// Chooses the order of the shuffled records
    #[arg(long, value_name = "N", default_value_t = 1, value_hint = ValueHint::Other)]
    pub seed: u64,
    /// Files checked at a time [default: the number of processors]
    #[arg(long, value_name = "N", value_parser = clap::value_parser!(u16).range(1..), value_hint = ValueHint::Other)]
    pub jobs: Option<u16>,
    /// A form to explain besides the start symbol, as 'memory "5" tone'; may be repeated
    #[arg(long = "form", value_name = "FORM", value_hint = ValueHint::Other)]
    pub forms: Vec<String>,
    /// Compare with what BASELINE says was last seen; write what it lacks
    #[arg(long, value_name = "BASELINE")]
    pub baseline: Option<PathBuf>,
    /// Write what is seen now over what BASELINE says
    #[arg(long, requires = "baseline")]
    pub update: bool,
}

/// Write the job of a text; a long job where a line has the kind L
#[derive(Debug, clap::Args)]
pub struct Assemble {
    /// A text with one record a line, or ABNF text
    pub file: Option<PathBuf>,
    #[command(flatten)]
    pub dialect: Dialect,
}

/// Write the text of a job or a long job, with numbers; that of ABNF text with names
#[derive(Debug, clap::Args)]
pub struct Disassemble {
    /// A job, a long job or ABNF text
    pub file: Option<PathBuf>,
    #[command(flatten)]
    pub dialect: Dialect,
}

/// Write a text or a long job, whose rules have bodies of up to eight symbols, as an ordinary job
#[derive(Debug, clap::Args)]
pub struct Binarize {
    /// A text, a long job or ABNF text
    pub file: Option<PathBuf>,
    #[command(flatten)]
    pub dialect: Dialect,
    /// Write the job's text, with names, instead of its bytes
    #[arg(long)]
    pub text: bool,
}

/// Write a job without its useless rules, in one spelling
#[derive(Debug, clap::Args)]
#[command(after_help = "\
The copy is the start symbol and the rules that are of use, sorted, with their variables numbered from 0. T, I and F records are left out. What \
is left out is told on standard error.")]
pub struct Clean {
    /// A job, its text or ABNF text
    pub file: Option<PathBuf>,
    #[command(flatten)]
    pub dialect: Dialect,
    /// Write the copy's text, with names, instead of its bytes
    #[arg(long)]
    pub text: bool,
}

/// Write the job of ABNF text
#[derive(Debug, clap::Args)]
#[command(after_help = "\
Each rule stands on one line: a name, = or =/, and alternatives of names, strings in quotes, and values as %x41 or %x41.42, with a comment at the \
end if need be. A line ends by CRLF or LF. The job has no automaton; report, explain and nightly take ABNF text with --word.")]
pub struct Read {
    /// ABNF text, whatever its name
    pub file: Option<PathBuf>,
    /// Write the job's text, with names, instead of its bytes
    #[arg(long)]
    pub text: bool,
}

/// Write the completions of a shell
#[derive(Debug, clap::Args)]
pub struct Completions {
    /// The shell
    #[arg(value_enum)]
    pub shell: clap_complete::Shell,
}
