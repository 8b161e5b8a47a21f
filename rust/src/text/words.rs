//! The words of a line.

/// A word of a line, and its bytes' place in it.
#[derive(Clone, Copy, Debug, PartialEq, Eq)]
pub(crate) struct Word<'a> {
    /// The word; a string with its quotes.
    pub text: &'a str,
    /// Its first byte's offset in the line.
    pub start: usize,
}

impl Word<'_> {
    /// The offset behind its last byte.
    pub fn end(&self) -> usize {
        self.start + self.text.len()
    }
}

/// Whether a text begins with the name of a letter in both cases, as `"f"/"F"`.
pub(crate) fn is_either_case(text: &str) -> bool {
    let bytes = text.as_bytes();
    matches!(bytes, [b'"', small @ b'a'..=b'z', b'"', b'/', b'"', capital, b'"', ..] if *capital == small.to_ascii_uppercase())
}

/// The length of that name.
const EITHER_CASE_BYTES: usize = 7;

/// The length of the word that the text begins with: a string up to its closing quote, else up to a blank, a string or a comment, where there are
/// any; of a letter in both cases both strings. None for a string that does not end.
fn word_length(text: &str, comments: bool) -> Option<usize> {
    if is_either_case(text) {
        return Some(EITHER_CASE_BYTES);
    }
    if !text.starts_with('"') {
        let ends = |c: char| c.is_whitespace() || c == '"' || (comments && c == '#');
        return Some(text.char_indices().skip(1).find(|(_, c)| ends(*c)).map_or(text.len(), |(at, _)| at));
    }
    let mut escaped = false;
    for (at, c) in text.char_indices().skip(1) {
        match c {
            _ if escaped => escaped = false,
            '\\' => escaped = true,
            '"' => return Some(at + 1),
            _ => {}
        }
    }
    None
}

/// The words of a line without its comment, or the place of a string that does not end.
pub(crate) fn words(line: &str) -> Result<Vec<Word<'_>>, usize> {
    split(line, true)
}

/// The words of a form, which has no comments, or the place of a string that does not end.
pub(crate) fn form_words(form: &str) -> Result<Vec<Word<'_>>, usize> {
    split(form, false)
}

/// Whether a comment begins here. In a form line the sign before a digit is a symbol's.
fn is_comment(rest: &str, before: &[Word<'_>]) -> bool {
    let in_form = before.first().is_some_and(|word| word.text == "form");
    rest.strip_prefix('#').is_some_and(|rest| !(in_form && rest.starts_with(|c: char| c.is_ascii_digit())))
}

fn split(line: &str, comments: bool) -> Result<Vec<Word<'_>>, usize> {
    let mut words = Vec::new();
    let mut at = 0;
    loop {
        let rest = &line[at..];
        let start = at + (rest.len() - rest.trim_start().len());
        let rest = &line[start..];
        if rest.is_empty() || (comments && is_comment(rest, &words)) {
            return Ok(words);
        }
        let length = word_length(rest, comments).ok_or(start)?;
        words.push(Word { text: &rest[..length], start });
        at = start + length;
    }
}

/// The longest name, and the longest part of a word that a message repeats, in characters.
pub(crate) const NAME_CHARACTERS: usize = 64;

/// Whether a word may be a name.
pub(crate) fn is_name(word: &str) -> bool {
    if word.chars().count() > NAME_CHARACTERS {
        return false;
    }
    if let Some(inner) = word.strip_prefix('"') {
        return word.len() > 2 && inner.chars().all(|c| c == ' ' || c.is_ascii_graphic() || c.is_alphanumeric());
    }
    if let Some(digits) = word.strip_prefix("%x") {
        return digits.len() == 2 && digits.bytes().all(|b| matches!(b, b'0'..=b'9' | b'A'..=b'F'));
    }
    word.starts_with(|c: char| c.is_alphabetic() || c == '_')
        && word.chars().all(|c| c.is_alphanumeric() || matches!(c, '_' | '-' | '.'))
}

/// Text for a message: control characters spelled out, and cut where it is long, so that input cannot disturb a terminal or flood it.
///
/// ```
/// use ropeclover::text::plain;
/// assert_eq!(plain("\x1b[2J"), "\\u{1b}[2J");
/// assert_eq!(plain(&"x".repeat(1_000)).chars().count(), 65);
/// ```
pub fn plain(text: &str) -> String {
    let mut short = String::new();
    for (at, c) in text.chars().enumerate() {
        if at == NAME_CHARACTERS {
            short.push('…');
            break;
        }
        if c.is_ascii_graphic() || c == ' ' || c.is_alphanumeric() {
            short.push(c);
        } else {
            short.extend(c.escape_default());
        }
    }
    short
}

/// A number that counts in order, for a message.
///
/// ```
/// use ropeclover::text::ordinal;
/// assert_eq!([1, 22, 103, 257].map(ordinal), ["1st", "22nd", "103rd", "257th"]);
/// assert_eq!([11, 112, 4_013].map(ordinal), ["11th", "112th", "4013th"]);
/// ```
pub fn ordinal(number: usize) -> String {
    let ending = match (number % 10, number % 100) {
        (_, 11..=13) => "th",
        (1, _) => "st",
        (2, _) => "nd",
        (3, _) => "rd",
        _ => "th",
    };
    format!("{number}{ending}")
}

#[cfg(test)]
mod tests {
    use super::{is_name, words};

    fn texts(line: &str) -> Vec<&str> {
        words(line).unwrap().iter().map(|word| word.text).collect()
    }

    #[test]
    fn comments_and_strings() {
        assert_eq!(texts("  P 0\t1 2# rule"), ["P", "0", "1", "2"]);
        assert_eq!(texts(r##"name 40 "#" # hash"##), ["name", "40", "\"#\""]);
        assert_eq!(texts(r#"name 40 "\"""#), ["name", "40", r#""\"""#]);
        assert_eq!(texts("# nothing"), Vec::<&str>::new());
        assert_eq!(texts("form a #5#6 # five, six"), ["form", "a", "#5", "#6"]);
        assert_eq!(texts("P 0 1 2#5"), ["P", "0", "1", "2"]);
        assert_eq!(words("U 0 \"F"), Err(4));
    }

    /// Two strings with a slash between them are one word where they are a small letter and its capital.
    #[test]
    fn letters_in_both_cases() {
        assert_eq!(texts(r#"P 0 "f"/"F""x" # letters"#), ["P", "0", r#""f"/"F""#, r#""x""#]);
        assert_eq!(texts(r#""F"/"f""#), [r#""F""#, "/", r#""f""#]);
        assert_eq!(texts(r#""f"/"G""#), [r#""f""#, "/", r#""G""#]);
        assert_eq!(texts(r#""1"/"1""#), [r#""1""#, "/", r#""1""#]);
        assert_eq!(texts(r#""f"/ "F""#), [r#""f""#, "/", r#""F""#]);
        assert_eq!(words(r#""f"/"F"#), Err(4));
    }

    #[test]
    fn names() {
        for name in ["memory", "_x", "old-scan.2", "\"S\"", "\" \"", "Größe", "%x0D", "%xFF", "\"f\"/\"F\""] {
            assert!(is_name(name), "{name}");
        }
        for word in ["", "3", "3a", "\"\"", "a b", "-x", "\"\x1b\"", "a\u{202e}", "%x0d", "%x0", "%x00D", "%d13", "%"] {
            assert!(!is_name(word), "{word}");
        }
    }
}
