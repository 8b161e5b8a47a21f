//! Refusals in words, with their places.
use super::{Buffer, Refusal};
use crate::text::ordinal;
use crate::{ABNF_BYTES, BIT_TABLE_BYTES, JOB_BYTES, LISTING_RECORD_BYTES, LONG_JOB_BYTES, LONG_RECORD_BYTES};
use crate::{BODY_SYMBOLS, CODES, FORM_SYMBOLS, REASONS, RULES, STATES, SYMBOLS, VARIABLES};
use crate::{MAP_BYTES, RECORD_BYTES, TABLE_BYTES};
use std::fmt;

/// A number of things in words: one has no plural.
fn counted(number: u64, thing: &str) -> String {
    format!("{number} {thing}{}", if number == 1 { "" } else { "s" })
}

impl fmt::Display for Refusal {
    fn fmt(&self, f: &mut fmt::Formatter<'_>) -> fmt::Result {
        // Words that several refusals have.
        let record = self.record().unwrap_or(0);
        let most = |bytes: &u64, limit: usize| format!("{bytes} bytes; at most {limit} are taken");
        let (variable, symbol, state) = (VARIABLES - 1, SYMBOLS - 1, STATES - 1);
        match self {
            Refusal::PartialRecord { records } => partial(f, "job", RECORD_BYTES, *records),
            Refusal::PartialLongRecord { records } => partial(f, "long job", LONG_RECORD_BYTES, *records),
            Refusal::JobTooLong { bytes } => write!(f, "the job has {}", most(bytes, JOB_BYTES)),
            Refusal::LongJobTooLong { bytes } => write!(f, "the long job has {}", most(bytes, LONG_JOB_BYTES)),
            Refusal::WrittenTooLong { bytes } => write!(f, "the job written would have {}", most(bytes, JOB_BYTES)),
            Refusal::TextTooLong { bytes } => write!(f, "the text has {}", most(bytes, ABNF_BYTES)),
            Refusal::UnknownKind { .. } => {
                write!(f, "record {record} has an unknown kind byte; the kinds are E, U, P, T, I, F and S, and L in a long job")
            }
            Refusal::FieldOutsideClass { .. } => write!(
                f,
                "record {record} has a field outside its class (a variable is 0 to {variable}, a symbol 0 to {symbol}, a state 0 to {state}, an unused field 0)"
            ),
            Refusal::Repeated { .. } => write!(f, "record {record} repeats an earlier record"),
            Refusal::WrittenTwice { .. } => {
                write!(f, "record {record} is written as a record that stands already among those written")
            }
            Refusal::Second { .. } => {
                write!(f, "record {record} is a second S or a second I record; there is one of each")
            }
            Refusal::TooManyRules { most, .. } => {
                write!(f, "record {record} is the {} rule; at most {most} are taken", ordinal(most + 1))
            }
            Refusal::TooManyWritten { most, .. } => {
                write!(f, "the {} rule is written for record {record}; at most {most} are taken", ordinal(most + 1))
            }
            Refusal::TooManyRulesRead { rule } => write!(
                f,
                "the text gives a {} rule; at most {RULES} different ones are taken",
                ordinal(usize::try_from(*rule).unwrap_or(usize::MAX))
            ),
            Refusal::NoStart { records } => missing(f, "S", "start symbol", *records),
            Refusal::NoInitial { records } => missing(f, "I", "initial state", *records),
            Refusal::ShortBuffer(Buffer::Table) => write!(f, "the lent table has fewer than {TABLE_BYTES} bytes"),
            Refusal::ShortBuffer(Buffer::Bits) => write!(f, "the lent bit table has fewer than {BIT_TABLE_BYTES} bytes"),
            Refusal::ShortBuffer(Buffer::Reasons) => write!(f, "the lent reasons are fewer than {REASONS} numbers"),
            Refusal::ShortBuffer(Buffer::Codes) => write!(f, "the lent codes have fewer than {CODES} bytes"),
            Refusal::ShortBuffer(Buffer::Map) => write!(f, "the lent map has fewer than {MAP_BYTES} bytes"),
            Refusal::NoSymbol { position } => {
                write!(f, "the form's byte at position {position} is over {symbol}, so it is no symbol")
            }
            Refusal::FormTooLong { symbols } => {
                write!(f, "the form has {symbols} symbols; at most {FORM_SYMBOLS} are taken")
            }
            Refusal::ListingTooShort { records } => {
                let records = counted(*records, "record");
                write!(f, "the lent listing is too short: room for {records} of {LISTING_RECORD_BYTES} bytes is needed")
            }
            Refusal::JobTooShort { records } => {
                let records = counted(*records, "record");
                write!(f, "the lent buffer is too short for the job written: room for {records} of {RECORD_BYTES} bytes is needed")
            }
            Refusal::TooFewVariables { .. } => write!(
                f,
                "record {record} takes more variables than are free: those of 0 to {variable} that no record names"
            ),
            Refusal::IllPadded { .. } => write!(
                f,
                "record {record} has a length over {BODY_SYMBOLS}, or a byte past its body or fields that is not 0"
            ),
            Refusal::OutsideAbnf { offset } => {
                write!(f, "the text leaves the part of ABNF that is read at offset {offset}")
            }
            Refusal::NameOutOfPlace { offset } => write!(
                f,
                "the name at offset {offset} has no rule, or it begins a rule by '=/' with no '=' above, or by '=' with one above"
            ),
            Refusal::TooManyVariables => write!(
                f,
                "the text takes more than {VARIABLES} variables: one for each name, for each letter of its strings, and for each tail of a body"
            ),
            Refusal::TooManyCharacters => write!(
                f,
                "the text uses more than {MAP_BYTES} characters, both cases of each letter of its strings included"
            ),
            Refusal::Other { number, place } => write!(f, "refused by {number} at {place}"),
        }
    }
}

/// What is said of bytes that are left over.
fn partial(f: &mut fmt::Formatter<'_>, what: &str, record_bytes: usize, records: u64) -> fmt::Result {
    let whole = counted(records, "whole record");
    write!(f, "the {what}'s length is not a multiple of {record_bytes}: bytes are left over after {whole}")
}

/// What is said of a record that is due and is not there.
fn missing(f: &mut fmt::Formatter<'_>, kind: &str, what: &str, records: u64) -> fmt::Result {
    write!(f, "there is no {kind} record among {}: the {what} is missing", counted(records, "record"))
}
