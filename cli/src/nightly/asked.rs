//! The words and the forms that a file is asked about.
use crate::failure::Failure;
use crate::input::Input;
use crate::word::Word;
use crate::{form, quote};
use ropeclover::format::start_symbol;
use ropeclover::text::FormLine;
use std::collections::BTreeSet;

/// The forms to explain, and what there is to say of them.
pub struct Asked {
    /// The start symbol's, then those of the text's form lines, then those of one's own as the names spell them.
    pub forms: Vec<Vec<u8>>,
    /// Which of one's own have names that the file lacks.
    pub skipped: Vec<usize>,
    pub warnings: Vec<String>,
    /// All but the start symbol's, whose answer is told by another line.
    taken: BTreeSet<Vec<u8>>,
}

impl Asked {
    /// Takes a form that is not asked about yet.
    fn take(&mut self, form: Vec<u8>) {
        if self.taken.insert(form.clone()) {
            self.forms.push(form);
        }
    }

    /// Takes what there is to say of a form and was not said of another.
    fn warn(&mut self, warnings: Vec<String>) {
        for warning in warnings {
            if !self.warnings.contains(&warning) {
                self.warnings.push(warning);
            }
        }
    }
}

/// The inputs to check: ABNF text with each word, once; any other as it is, as its automaton is its own.
pub fn words(words: &[Word], input: Input) -> Result<Vec<Input>, Failure> {
    if input.abnf.is_none() || words.is_empty() {
        return Ok(vec![input]);
    }
    let new = words.iter().enumerate().filter(|(at, word)| !words[..*at].contains(word));
    new.map(|(_, word)| input.clone().with_word(word)).collect()
}

/// An error where a form line names a variable that was free, and that a long rule took: it is another symbol now.
fn check_taken(line: &FormLine, input: &Input) -> Result<(), Failure> {
    match line.symbols.iter().find(|symbol| input.fresh.contains(symbol)) {
        Some(symbol) => Err(Failure::Differs(format!(
            "{}: the form in line {} has variable {symbol}, which no record names, so that a long rule took it",
            input.name, line.line
        ))),
        None => Ok(()),
    }
}

/// The forms to explain of an input, with those of one's own.
pub fn forms(own: &[String], input: &Input) -> Result<Asked, Failure> {
    let start = start_symbol(&input.job).into_iter().collect();
    let mut asked = Asked { forms: vec![start], skipped: Vec::new(), warnings: Vec::new(), taken: BTreeSet::new() };
    for line in &input.forms {
        check_taken(line, input)?;
        asked.take(line.symbols.clone());
        asked.warn(form::warnings(&line.text, &input.names));
    }
    for (at, text) in own.iter().enumerate() {
        match form::read(text, &input.names) {
            Ok(form) => {
                asked.take(form);
                asked.warn(form::warnings(text, &input.names));
            }
            Err(message) => {
                asked.skipped.push(at);
                asked.warnings.push(format!("skipped --form '{}': {message}", quote::visible_word(text)));
            }
        }
    }
    Ok(asked)
}
