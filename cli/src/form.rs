//! Forms as they are typed.
use ropeclover::text::{Names, UnknownSymbol};
use ropeclover::FORM_SYMBOLS;

/// How alike a name must be to be suggested, of 1.
const ALIKE: f64 = 0.8;

/// The name that is most like a word.
pub fn nearest<'a>(word: &str, names: impl Iterator<Item = &'a str>) -> Option<&'a str> {
    let measured = names.map(|name| (strsim::jaro_winkler(word, name), name));
    let alike = measured.filter(|(likeness, _)| *likeness >= ALIKE);
    alike.max_by(|(one, _), (other, _)| one.total_cmp(other)).map(|(_, name)| name)
}

/// What to say of a word that is no symbol.
fn unknown(unknown: &UnknownSymbol, names: &Names) -> String {
    let near = match unknown {
        UnknownSymbol::Word(word) => nearest(word, (0..64).filter_map(|symbol| names.symbol_name(symbol))),
        _ => None,
    };
    near.map_or_else(|| unknown.to_string(), |name| format!("{unknown}. Did you mean '{name}'?"))
}

/// The form that a text spells, or what to say of the first word that is no symbol.
pub fn read(text: &str, names: &Names) -> Result<Vec<u8>, String> {
    names.form(text).map_err(|error| unknown(&error, names))
}

/// What to say of numbers that might have been meant as characters.
pub fn warnings(text: &str, names: &Names) -> Vec<String> {
    let warning = |number| format!("{number} is read as symbol {number}, as no character is named so; write #{number}");
    names.bare_numbers(text).into_iter().map(warning).collect()
}

/// The symbols of a form with names, as far as a refusal may speak of them: up to the first that is one too many.
pub fn quoted(form: &[u8], names: &Names) -> Vec<String> {
    form.iter().take(FORM_SYMBOLS + 1).map(|symbol| names.symbol(*symbol).into_owned()).collect()
}
