//! Answers as JSON, for other programs. The objects are described in the manual page.
use crate::input::{self, Input, Unreadable};
use crate::print::codes::kind;
use crate::print::turns::Turns;
use crate::{abnf, refused};
use ropeclover::listing::{Reason, Record};
use ropeclover::text::{self, Names, TextError};
use ropeclover::{Explanation, Missing, Refusal, Report, CODES};
use serde_json::{json, Map, Value};
use std::io::{self, Write};

/// One object on a line.
pub fn write(output: &mut dyn Write, value: &Value) -> io::Result<()> {
    serde_json::to_writer(&mut *output, value)?;
    writeln!(output)
}

pub fn report(report: &Report, input: &Input) -> Value {
    let answer = json!({
        "states": report.states,
        "examined": report.examined,
        "joins": report.joins,
        "start": report.start,
        "empty": report.empty,
        "growing": report.growing,
    });
    about_word(answer, input)
}

/// An answer; where it is about a word, with that and its first character that the grammar does not use.
fn about_word(mut answer: Value, input: &Input) -> Value {
    let Some(asked) = &input.word else { return answer };
    let missing = |Missing { character, position }| json!({ "character": character, "position": position });
    answer["word"] = asked.word.to_string().into();
    answer["missing"] = asked.missing.map(missing).into();
    answer
}

pub fn codes(codes: &[u8; CODES], names: &Names) -> Value {
    let symbol = |(symbol, code): (u8, &u8)| {
        let name = names.symbol_name(symbol);
        json!({ "symbol": symbol, "name": name, "code": code, "kind": kind(*code) })
    };
    json!({ "symbols": (0..).zip(codes).map(symbol).collect::<Vec<Value>>() })
}

/// The names of all numbers that have one.
fn names<'a>(name: impl Fn(u8) -> Option<&'a str>) -> Value {
    let named = (0..CODES as u8).filter_map(|number| Some((number.to_string(), Value::from(name(number)?))));
    Value::Object(named.collect::<Map<String, Value>>())
}

fn record(record: &Record, turns: Turns<'_>) -> Value {
    let (from, symbol, to) = record.transition;
    let (reason, body, middle) = match record.reason {
        Reason::Given => ("given", None, None),
        Reason::Empty => ("empty", Some(vec![]), None),
        Reason::Unit(x) => ("unit", Some(vec![x]), None),
        Reason::Pair(b, c, middle) => ("pair", Some(vec![b, c]), Some(middle)),
    };
    let mut value =
        json!({ "from": from, "symbol": symbol, "to": to, "reason": reason, "body": body, "middle": middle });
    if let Some(turn) = turns.of(record.transition) {
        value["turn"] = turn.into();
    }
    value
}

pub fn explanation(explanation: &Explanation, input: &Input, turns: Turns<'_>) -> Value {
    let records = explanation.records.iter().map(|explained| record(explained, turns));
    let answer = json!({
        "accepted": explanation.accepted,
        "form": explanation.form,
        "sequence": explanation.sequence,
        "records": records.collect::<Vec<Value>>(),
        "symbols": names(|symbol| input.names.symbol_name(symbol)),
        "states": names(|state| input.names.state_name(state)),
    });
    about_word(answer, input)
}

fn malformed(error: &TextError, names: &Names) -> Value {
    let (line, message) = (error.span.line, error.problem.to_string());
    json!({ "line": line, "message": message, "suggestion": input::suggestion(&error.problem, names) })
}

pub fn unreadable(unreadable: &Unreadable) -> Value {
    let lines: Vec<Value> = match unreadable {
        Unreadable::Malformed { text, errors, .. } => {
            let names = text::names(text);
            errors.iter().map(|error| malformed(error, &names)).collect()
        }
        _ => vec![],
    };
    json!({ "unreadable": { "message": unreadable.to_string(), "lines": lines } })
}

/// The refusal of an ABNF text, with the words, the column and the suggestion that people are told.
fn refused_abnf(refusal: Refusal, input: &Input) -> Option<Value> {
    let abnf = input.abnf.as_ref()?;
    let told = abnf::told(refusal, abnf)?;
    let (line, column) = told.position(&abnf.file).unzip();
    Some(json!({ "refused": {
        "number": refusal.number(),
        "place": refusal.place(),
        "message": told.message(),
        "file": input.name,
        "line": line,
        "column": column,
        "suggestion": told.suggestion,
    } }))
}

pub fn refusal(refusal: Refusal, input: &Input) -> Value {
    if let Some(refused) = refused_abnf(refusal, input) {
        return refused;
    }
    json!({ "refused": {
        "number": refusal.number(),
        "place": refusal.place(),
        "message": refusal.to_string(),
        "file": input.name,
        "line": refused::line(refusal, input),
    } })
}
