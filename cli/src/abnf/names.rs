//! Refusal 17: a name that begins no line, or whose lines are out of order.
use super::said::{lines, lower, Line};
use super::told::Told;
use crate::form;
use ropeclover::text::plain;
use std::ops::Range;

/// The core rules of RFC 5234, appendix B.1, as small letters.
const CORE_RULES: [&str; 16] = [
    "alpha", "bit", "char", "cr", "crlf", "ctl", "digit", "dquote", "hexdig", "htab", "lf", "lwsp", "octet", "sp",
    "vchar", "wsp",
];

/// A name as it is spelled, cut where it is long.
fn spelled(file: &[u8], name: &Range<usize>) -> String {
    plain(&String::from_utf8_lossy(&file[name.clone()]))
}

/// The name that is most like another, as it is spelled where it first begins a line.
fn nearest(file: &[u8], lines: &[Line], name: &str) -> Option<String> {
    let names: Vec<String> = lines.iter().map(|line| lower(file, &line.name)).collect();
    let near = form::nearest(name, names.iter().map(String::as_str))?;
    let at = names.iter().position(|other| other == near)?;
    Some(spelled(file, &lines[at].name))
}

/// A name that begins no line.
fn without_rule(file: &[u8], lines: &[Line], place: Range<usize>) -> Told {
    let (name, lower) = (spelled(file, &place), lower(file, &place));
    let mut told = Told::new(format!("no rule is named '{name}'")).at(place, "this name begins no line");
    if CORE_RULES.contains(&lower.as_str()) {
        told.notes.push(format!("{name} is a core rule of RFC 5234; a text has none of these unless it says it"));
    }
    told.suggestion = nearest(file, lines, &lower);
    if let Some(near) = &told.suggestion {
        told.notes.push(format!("did you mean '{near}'?"));
    }
    told
}

/// A line that begins by `=` though one above does, or by `=/` though none above begins by `=`.
fn out_of_order(file: &[u8], lines: &[Line], line: &Line) -> Told {
    let (name, place) = (spelled(file, &line.name), line.name.clone());
    let is_first = |other: &&Line| !other.adds && lower(file, &other.name) == lower(file, &line.name);
    let first = lines.iter().find(is_first).map(|other| other.name.clone());
    if !line.adds {
        let told = Told::new(format!("'{name}' has a rule by = already")).at(place, "= again; =/ adds to a rule");
        return told.with(first.unwrap_or_default(), "the first");
    }
    let told = Told::new(format!("'{name}' has no rule by = above")).at(place, "=/ adds to a rule that stands above");
    match first {
        Some(below) => told.with(below, "its = stands here"),
        None => told,
    }
}

pub fn told(file: &[u8], offset: usize) -> Told {
    let lines = lines(file);
    if let Some(line) = lines.iter().find(|line| line.name.start == offset) {
        return out_of_order(file, &lines, line);
    }
    let elements = lines.iter().flat_map(|line| &line.alternatives).flat_map(|alternative| &alternative.0);
    let name = elements.map(|(_, place)| place).find(|place| place.start == offset);
    without_rule(file, &lines, name.cloned().unwrap_or(offset..offset))
}
