//! Jobs as text, one record a line.
//!
//! ```text
//! # A comment goes to the end of its line; empty lines count for nothing.
//! name 0 command          # symbol 0 may be written as command
//! name 32 "F"             # symbol 32 as "F", quotes included
//! state 1 tuned           # state 1 as tuned
//! S command
//! U command "F"
//! I 0
//! F tuned
//! T 0 "F" tuned
//! ```
//!
//! A line `name NUMBER NAME` names a symbol, `state NUMBER NAME` a state. A name is a letter or `_` followed by letters, digits, `_`, `-` and `.`,
//! or a string in double quotes, in which `\"` and `\\` stand for a quote and a backslash. So are `%x0D`, a character by its number in two capital
//! hexadecimal digits, and `"f"/"F"`, a letter in both cases, by which [`AbnfGrammar`](crate::AbnfGrammar) names symbols. Name lines may stand
//! anywhere. Symbols and states have names apart, and a record's field takes the names of its class.
//!
//! A record has the fields that its kind uses: one of E, I, F and S, two of U, three of P and T. The zeros of a job's record behind them may be written
//! out, as in `S 0 0 0`.
//!
//! A line `L HEAD SYMBOL ...` is a rule with a body of up to eight symbols. A text with one spells a [long job](crate::long), and [`Text::ordinary`] gives
//! the job of any text.
//!
//! A line `form SYMBOL ...` asks about a form, spelled as [`Names::form`] reads it. In it a `#` before a digit starts no comment.
mod error;
mod forms;
mod names;
mod parse;
mod print;
mod words;

pub use error::{Problem, Span, TextError, UnknownSymbol};
pub use names::Names;
pub use parse::{names, read, FormLine, RecordPlace, Text, MOST_ERRORS};
pub use print::{disassemble, long_spelling, print, spelling};
pub(crate) use words::is_name;
pub use words::{ordinal, plain};

/// The job that a text spells, or the long job where a line has the kind L. The job itself is not checked. [`Text::ordinary`] gives a job in either
/// case.
///
/// ```
/// use ropeclover::text::assemble;
/// assert_eq!(assemble("S 0\nP 0 1 1 # a rule\n").unwrap(), b"S\0\0\0P\0\x01\x01");
/// assert_eq!(assemble("L 0 32 1 33\n").unwrap(), b"L\0\x03\x20\x01\x21\0\0\0\0\0\0");
/// assert_eq!(assemble("S 0\nP 0 1 x\n").unwrap_err().to_string(), "line 2: 'x' is no symbol: neither the name of one nor a number from 0 to 63");
/// ```
///
/// # Errors
/// The first thing in the text that is no part of the format; [`read`] gives more of them.
pub fn assemble(text: &str) -> Result<Vec<u8>, TextError> {
    match read(text) {
        Ok(text) => Ok(text.bytes),
        Err(mut errors) => Err(errors.remove(0)),
    }
}
