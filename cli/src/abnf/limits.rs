//! Refusals 18 and 7: what was counted, and where the first stands that is one too many.
use super::needs::Needs;
use super::told::Told;
use ropeclover::text::ordinal;
use ropeclover::{MAP_BYTES, RULES, VARIABLES};
use std::ops::Range;

/// A number of things in words.
fn counted(number: usize, thing: &str) -> String {
    format!("{number} {thing}{}", if number == 1 { "" } else { "s" })
}

/// A message with the place of the first that is one too many.
fn told(headline: String, place: &Option<Range<usize>>, first: String, note: &str) -> Told {
    let told = Told::new(headline).noting(note);
    match place {
        Some(place) => told.at(place.clone(), first),
        None => told,
    }
}

/// 18 at 1.
pub fn variables(needs: &Needs) -> Told {
    let (names, letters) = (counted(needs.names(), "name"), counted(needs.letters(), "letter"));
    let parts = format!("{names}, {letters} and {}", counted(needs.tails, "tail"));
    let headline = format!("the text takes {} variables, {parts}; a job has {VARIABLES}", needs.variables());
    let first = format!("the {} variable is taken here", ordinal(VARIABLES + 1));
    let note = "each letter in quotes takes one in the whole text, and an alternative of n symbols, n over 2, takes n - 2 for its tails";
    told(headline, &needs.first_variable, first, note)
}

/// 18 at 2.
pub fn characters(needs: &Needs) -> Told {
    let headline = format!("the text uses {} characters; a job has {MAP_BYTES} terminals", needs.characters());
    let first = format!("the {} character stands here", ordinal(MAP_BYTES + 1));
    let note = "a letter in quotes counts in both cases; as a value, as %x46, it counts once";
    told(headline, &needs.first_character, first, note)
}

/// 7.
pub fn rules(needs: &Needs) -> Told {
    let headline = format!("the text takes {} rules; a job has at most {RULES}", needs.rules());
    let first = format!("the {} rule is taken here", ordinal(RULES + 1));
    let note = "each alternative takes one and one more for each of its tails, and each letter in quotes takes two; equal ones count once";
    told(headline, &needs.first_rule, first, note)
}
