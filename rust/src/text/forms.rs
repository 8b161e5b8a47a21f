//! Forms as they are typed: names, characters, and numbers.
use super::error::UnknownSymbol;
use super::names::{number, Names};
use super::words::{form_words, is_either_case, Word};
use std::collections::BTreeSet;

/// What a word of a form stands for.
enum Reading {
    Symbols(Vec<u8>),
    /// A number without its `#`, which no name and no character claims.
    BareNumber(u8),
}

/// The part of a word between its quotes; none of a word without them.
fn unquoted(word: &str) -> Option<&str> {
    word.strip_prefix('"')?.strip_suffix('"')
}

/// The characters of a string, in which a backslash stands before a quote or a backslash.
fn characters(inner: &str) -> impl Iterator<Item = char> + '_ {
    let mut rest = inner.chars();
    std::iter::from_fn(move || match rest.next()? {
        '\\' => Some(rest.next().unwrap_or('\\')),
        character => Some(character),
    })
}

/// A character as a name spells it.
fn quoted(character: char) -> String {
    let escape = if matches!(character, '"' | '\\') { "\\" } else { "" };
    format!("\"{escape}{character}\"")
}

/// Whether a name is made of ranges, as `"0-9"` or `"A-Za-z"`, and one of them holds a character.
fn holds(name: &str, character: char) -> bool {
    let mut rest = characters(unquoted(name).unwrap_or_default());
    let mut is_held = false;
    while let Some(first) = rest.next() {
        let (Some('-'), Some(last)) = (rest.next(), rest.next()) else { return false };
        is_held |= (first..=last).contains(&character);
    }
    is_held
}

impl Names {
    /// The symbol of a character: the one that is named so, else the one whose name's ranges hold it.
    fn character(&self, character: char) -> Result<u8, UnknownSymbol> {
        if let Some(symbol) = self.find_symbol(&quoted(character)) {
            return Ok(symbol);
        }
        let holding: Vec<(u8, &str)> = self.named_symbols().filter(|(_, name)| holds(name, character)).collect();
        match holding[..] {
            [] => Err(UnknownSymbol::Character(character)),
            [(symbol, _)] => Ok(symbol),
            [(_, one), (_, other), ..] => Err(UnknownSymbol::Several(character, one.into(), other.into())),
        }
    }

    /// What a word stands for. Names come before characters, as a shell takes quotes away; a number comes last.
    fn reading(&self, word: &str) -> Result<Reading, UnknownSymbol> {
        let unknown = || UnknownSymbol::Word(word.into());
        if let Some(digits) = word.strip_prefix('#').filter(|digits| !digits.is_empty()) {
            return Ok(Reading::Symbols(vec![number(digits).ok_or_else(unknown)?]));
        }
        let name = self.find_symbol(word).or_else(|| self.find_symbol(&format!("\"{word}\"")));
        if let Some(symbol) = name {
            return Ok(Reading::Symbols(vec![symbol]));
        }
        if let Some(inner) = unquoted(word) {
            // A letter in both cases that names no symbol stands for what its signs stand for one by one.
            let inner = if is_either_case(word) { inner.replace("\"/\"", "/") } else { inner.into() };
            let symbols = characters(&inner).map(|character| self.character(character));
            return Ok(Reading::Symbols(symbols.collect::<Result<_, _>>()?));
        }
        let mut characters = word.chars();
        let symbol = match (characters.next(), characters.next()) {
            (Some(only), None) => self.character(only),
            _ => Err(unknown()),
        };
        match (symbol, number(word)) {
            (Ok(symbol), _) => Ok(Reading::Symbols(vec![symbol])),
            (Err(UnknownSymbol::Word(_) | UnknownSymbol::Character(_)), Some(number)) => {
                Ok(Reading::BareNumber(number))
            }
            (Err(unknown), _) => Err(unknown),
        }
    }

    /// The form that words spell, or the first that is no symbol.
    pub(crate) fn read_words<'a>(&self, words: &[Word<'a>]) -> Result<Vec<u8>, (Word<'a>, UnknownSymbol)> {
        let mut form = Vec::new();
        for word in words {
            match self.reading(word.text).map_err(|unknown| (*word, unknown))? {
                Reading::Symbols(symbols) => form.extend(symbols),
                Reading::BareNumber(number) => form.push(number),
            }
        }
        Ok(form)
    }

    /// The form that words spell, as the command takes it: names, characters, and numbers as `#35`. A string that is no name itself stands for its
    /// characters, so the empty string for no symbol; a single character may stand without quotes. A character is the symbol that is named so, in
    /// quotes, or the one whose name is made of ranges, as `"0-9"`, that hold it. A number without its `#` is a symbol only where it is no such character:
    /// [`Names::bare_numbers`] tells.
    ///
    /// ```
    /// let names = ropeclover::text::read("name 3 memory\nname 34 \"M\"\nname 33 \"T\"\nname 35 \"0-9\"\n").unwrap().names;
    /// assert_eq!(names.form("memory \"MT\" #5 M").unwrap(), [3, 34, 33, 5, 34]);
    /// assert_eq!(names.form("M 5 \"T88\" 36").unwrap(), [34, 35, 33, 35, 35, 36]);
    /// assert_eq!(names.form("memory tone").unwrap_err().to_string(), "'tone' is no symbol: neither a name nor a number from 0 to 63");
    /// assert_eq!(names.form("\"MX\"").unwrap_err().to_string(), "'X' is no symbol: no character is named so, and no range holds it");
    /// ```
    ///
    /// # Errors
    /// The first word or character that is no symbol.
    pub fn form(&self, text: &str) -> Result<Vec<u8>, UnknownSymbol> {
        let words = form_words(text).map_err(|start| UnknownSymbol::Word(text[start..].into()))?;
        self.read_words(&words).map_err(|(_, unknown)| unknown)
    }

    /// The words of a form that are read as the numbers of symbols though they have no `#`, each once, in ascending order.
    ///
    /// ```
    /// let names = ropeclover::text::read("name 35 \"0-9\"\n").unwrap().names;
    /// assert_eq!(names.bare_numbers("5 36 #37 36").into_iter().collect::<Vec<u8>>(), [36]);
    /// ```
    pub fn bare_numbers(&self, text: &str) -> BTreeSet<u8> {
        let words = form_words(text).unwrap_or_default();
        let bare = |word: &Word<'_>| match self.reading(word.text) {
            Ok(Reading::BareNumber(number)) => Some(number),
            _ => None,
        };
        words.iter().filter_map(bare).collect()
    }
}

#[cfg(test)]
mod tests {
    use super::holds;
    use crate::text::read;

    #[test]
    fn ranges() {
        for (name, character, expected) in [
            ("\"0-9\"", '5', true),
            ("\"0-9\"", '-', false),
            ("\"0-9\"", 'a', false),
            ("\"A-Za-z\"", 'q', true),
            ("\"A-Za\"", 'B', false),
            ("\"--/\"", '.', true),
            ("digits", 'd', false),
            ("\"9-0\"", '5', false),
        ] {
            assert_eq!(holds(name, character), expected, "{name} {character}");
        }
    }

    #[test]
    fn quotes_and_backslashes_are_characters() {
        let names = read("name 40 \"\\\"\"\nname 41 \"\\\\\"\nname 42 \"a\"\n").unwrap().names;
        assert_eq!(names.form("\"a\\\"\\\\\""), Ok(vec![42, 40, 41]));
        assert_eq!(names.form("\\"), Ok(vec![41]));
    }

    #[test]
    fn a_character_in_two_ranges_is_no_symbol() {
        let names = read("name 40 \"0-9\"\nname 41 \"0-7\"\nname 42 \"3\"\n").unwrap().names;
        assert_eq!(names.form("5").unwrap_err().to_string(), "'5' may be \"0-9\" or \"0-7\", which both hold it");
        assert_eq!(names.form("8 3"), Ok(vec![40, 42]));
    }
}
