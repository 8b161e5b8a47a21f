//! Refusal 16: what stands where a text leaves the part, and what may stand there.
use super::pieces::{stage_at, Stage};
use super::told::Told;

/// What is said of something that ABNF has and the part has not.
fn outside(what: &str) -> String {
    format!("{what} outside the part of ABNF that is read")
}

/// A byte in words.
fn byte_name(byte: u8) -> String {
    match byte {
        b'!'..=b'~' => format!("'{}'", char::from(byte)),
        _ => format!("the byte %x{byte:02X}"),
    }
}

/// What is wrong with a value, by what stands behind its percent sign.
fn value(rest: &[u8]) -> String {
    match rest {
        [b'd' | b'D' | b'b' | b'B', ..] => outside("values in decimal or binary digits are"),
        [b's' | b'S' | b'i' | b'I', b'"', ..] => outside("strings with %s or %i, of RFC 7405, are"),
        [b'x' | b'X', digits @ ..] => {
            let behind = digits.iter().position(|byte| !byte.is_ascii_hexdigit()).unwrap_or(digits.len());
            match digits[behind..] {
                _ if behind == 0 => "%x has no hexadecimal digit behind it".into(),
                [b'-', next, ..] if next.is_ascii_hexdigit() => outside("ranges are"),
                _ => outside("values above FF are"),
            }
        }
        _ => "a percent sign begins a value: %x and hexadecimal digits".into(),
    }
}

/// What is wrong with a string, by what stands behind its quote.
fn string(rest: &[u8]) -> String {
    match rest.iter().find(|byte| !matches!(byte, b' '..=b'!' | b'#'..=b'~')) {
        None | Some(b'\r' | b'\n') => "this string has no closing quote on its line".into(),
        Some(byte) => format!("a string has blanks and visible characters, and this one {}", byte_name(*byte)),
    }
}

/// What is wrong where a rule is due.
fn no_rule(rest: &[u8]) -> String {
    match rest {
        [] => "a text has at least one rule, and this one is empty".into(),
        [b'\r', b'\n', ..] | [b'\n', ..] => outside("empty lines are"),
        [b';', ..] => outside("lines with a comment and no rule are"),
        [b' ' | b'\t', ..] => outside("lines that begin with a blank, or go on from the line before, are"),
        [byte, ..] => format!("a line begins with {}", byte_name(*byte)),
    }
}

/// What is wrong where an element is due, or where one has ended.
fn no_element(stage: Stage, rest: &[u8]) -> String {
    let is_open = stage == Stage::Open;
    match rest {
        [b'\r', b'\n', ..] | [b'\n', ..] => "the line ends where an element is due".into(),
        [b';', ..] if is_open => "a comment stands where an element is due".into(),
        [b'/', ..] if is_open => "a slash stands where an element is due".into(),
        [b'-', ..] if stage == Stage::Filled => outside("ranges are"),
        [b'.', ..] if stage == Stage::Filled => "a dot has no hexadecimal digit behind it".into(),
        [byte, ..] if stage == Stage::Filled && (byte.is_ascii_alphabetic() || b"\"%".contains(byte)) => {
            "no blank stands between two elements".into()
        }
        [b'(' | b')', ..] => outside("groups are"),
        [b'[' | b']', ..] => outside("options are"),
        [b'*' | b'0'..=b'9', ..] => outside("repetition is"),
        [b'<', ..] => outside("prose values are"),
        [b'%', rest @ ..] => value(rest),
        [b'"', rest @ ..] => string(rest),
        [b'=', ..] => "a rule has one = or =/".into(),
        [byte, ..] => format!("{} begins no element", byte_name(*byte)),
        [] => "the text ends where an element is due".into(),
    }
}

/// What stands where a text leaves the part, by how far its line is read.
fn found(stage: Stage, rest: &[u8]) -> String {
    match (stage, rest) {
        (Stage::Filled | Stage::Spaced | Stage::Noted, []) => "the last line has no line end".into(),
        (_, [b'\r']) => "a CR without LF is no line end".into(),
        (_, [b'\r', next, ..]) if *next != b'\n' => "a CR without LF is no line end".into(),
        (Stage::LineStart, _) => no_rule(rest),
        (Stage::Named, []) => "the text ends behind the name of a rule".into(),
        (Stage::Named, [b'\r' | b'\n', ..]) => "the line ends behind the name of a rule".into(),
        (Stage::Named | Stage::Filled, [b'_', ..]) => "a name has letters, digits and dashes, and no '_'".into(),
        (Stage::Named, [byte, ..]) => format!("{} stands behind the name of a rule", byte_name(*byte)),
        (Stage::Noted, [byte, ..]) => {
            format!("a comment has blanks, tabs and visible characters, and this one {}", byte_name(*byte))
        }
        (Stage::Open | Stage::Filled | Stage::Spaced, _) => no_element(stage, rest),
    }
}

pub fn told(file: &[u8], offset: usize) -> Told {
    let rest = &file[offset.min(file.len())..];
    let place = offset..offset + usize::from(!rest.is_empty());
    match stage_at(file, offset) {
        Some(stage) => Told::new(found(stage, rest)).at(place, stage.allowed()),
        None => Told::new(outside("this is")).at(place, ""),
    }
}
