//! What an ABNF text takes of the numbers that a job has, counted for messages. Whether that is too much is the library's to say.
use super::pieces::Kind;
use super::said::{characters, lines, lower, Alternative};
use ropeclover::{MAP_BYTES, RULES, VARIABLES};
use std::collections::BTreeSet;
use std::ops::Range;

/// What a rule has in its body: a name by its number, a letter of either case as a small one, any other character, a tail by its number.
#[derive(Clone, Copy, PartialEq, Eq, PartialOrd, Ord)]
enum Symbol {
    Name(usize),
    Letter(u8),
    Character(u8),
    Tail(usize),
}

/// What is counted, and where the first stands that is one too many.
#[derive(Default)]
pub struct Needs {
    /// The names that begin lines, in order, as small letters.
    names: Vec<String>,
    letters: BTreeSet<u8>,
    pub tails: usize,
    characters: BTreeSet<u8>,
    rules: BTreeSet<(Symbol, Vec<Symbol>)>,
    pub first_variable: Option<Range<usize>>,
    pub first_character: Option<Range<usize>>,
    pub first_rule: Option<Range<usize>>,
}

impl Needs {
    /// What a text takes: variables for its names, then body by body for letters and tails.
    pub fn of(text: &[u8]) -> Needs {
        let mut needs = Needs::default();
        let lines = lines(text);
        for line in &lines {
            let name = lower(text, &line.name);
            if !needs.names.contains(&name) {
                needs.names.push(name);
                needs.mark(line.name.clone());
            }
        }
        for line in &lines {
            let head = needs.name(&lower(text, &line.name));
            line.alternatives.iter().for_each(|alternative| needs.add(text, head, alternative));
        }
        needs
    }

    pub fn names(&self) -> usize {
        self.names.len()
    }

    pub fn letters(&self) -> usize {
        self.letters.len()
    }

    pub fn variables(&self) -> usize {
        self.names() + self.letters() + self.tails
    }

    pub fn characters(&self) -> usize {
        self.characters.len()
    }

    pub fn rules(&self) -> usize {
        self.rules.len()
    }

    /// A name's symbol. Every name of an accepted text has a number.
    fn name(&self, name: &str) -> Symbol {
        Symbol::Name(self.names.iter().position(|other| other == name).unwrap_or(self.names.len()))
    }

    /// The symbol of a character, which is counted, as is the letter that it may stand for.
    fn character(&mut self, (character, either): (u8, bool)) -> Symbol {
        if !either {
            self.characters.insert(character);
            return Symbol::Character(character);
        }
        let (small, capital) = (character.to_ascii_lowercase(), character.to_ascii_uppercase());
        let letter = Symbol::Letter(small);
        self.letters.insert(small);
        for case in [capital, small] {
            self.characters.insert(case);
            self.rules.insert((letter, vec![Symbol::Character(case)]));
        }
        letter
    }

    fn add(&mut self, text: &[u8], head: Symbol, alternative: &Alternative) {
        let mut body = Vec::new();
        for (kind, place) in &alternative.0 {
            if *kind == Kind::Name {
                body.push(self.name(&lower(text, place)));
            } else {
                let characters = characters(&text[place.clone()]);
                body.extend(characters.into_iter().map(|character| self.character(character)));
            }
            self.mark(place.clone());
        }
        self.split(head, &body);
        self.mark(alternative.place());
    }

    /// Keeps a place for each that was counted there and is the first past its limit.
    fn mark(&mut self, place: Range<usize>) {
        if self.variables() > VARIABLES {
            self.first_variable.get_or_insert(place.clone());
        }
        if self.characters() > MAP_BYTES {
            self.first_character.get_or_insert(place.clone());
        }
        if self.rules() > RULES {
            self.first_rule.get_or_insert(place);
        }
    }

    /// Counts the rules of a body, and the tails of one that is split.
    fn split(&mut self, mut head: Symbol, mut body: &[Symbol]) {
        while let [first, rest @ ..] = body {
            if rest.len() < 2 {
                break;
            }
            self.tails += 1;
            let tail = Symbol::Tail(self.tails);
            self.rules.insert((head, vec![*first, tail]));
            (head, body) = (tail, rest);
        }
        self.rules.insert((head, body.to_vec()));
    }
}
