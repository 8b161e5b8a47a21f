//! What an ABNF text means by RFC 5234: its alternatives as productions over names and characters, a letter of a quoted string in both cases. Nothing here
//! knows of jobs, variables or terminals.
use super::abnf::{Character, Element, Line};
use std::collections::BTreeSet;

#[derive(Clone, Copy, Debug)]
enum Symbol {
    /// A name, by its place in the list.
    Name(usize),
    Character(u8),
}

pub struct Meaning {
    /// The names that have rules, in lower case, as they come in the text.
    pub names: Vec<Vec<u8>>,
    productions: Vec<(usize, Vec<Symbol>)>,
}

/// The bodies that an alternative stands for: one for each choice of cases.
fn bodies(alternative: &[Element], names: &[Vec<u8>]) -> Vec<Vec<Symbol>> {
    let mut bodies = vec![vec![]];
    for element in alternative {
        match element {
            Element::Name(name) => add(&mut bodies, &[Symbol::Name(place(names, name))]),
            Element::Characters(characters) => {
                characters.iter().for_each(|character| add(&mut bodies, &cases(*character)))
            }
        }
    }
    bodies
}

fn cases((byte, either): Character) -> Vec<Symbol> {
    let cases =
        if either { BTreeSet::from([byte.to_ascii_lowercase(), byte.to_ascii_uppercase()]) } else { [byte].into() };
    cases.into_iter().map(Symbol::Character).collect()
}

/// Each body with each symbol behind it.
fn add(bodies: &mut Vec<Vec<Symbol>>, symbols: &[Symbol]) {
    let longer = |body: &Vec<Symbol>| symbols.iter().map(|symbol| [&body[..], &[*symbol]].concat()).collect::<Vec<_>>();
    *bodies = bodies.iter().flat_map(longer).collect();
}

fn place(names: &[Vec<u8>], name: &[u8]) -> usize {
    names.iter().position(|other| other.eq_ignore_ascii_case(name)).expect("a name with a rule")
}

impl Meaning {
    /// The meaning of a text in which every name has a rule.
    pub fn of(lines: &[Line]) -> Meaning {
        let mut names: Vec<Vec<u8>> = vec![];
        for line in lines {
            if !names.iter().any(|name| name.eq_ignore_ascii_case(&line.name)) {
                names.push(line.name.to_ascii_lowercase());
            }
        }
        let mut productions = vec![];
        for line in lines {
            let found = line.alternatives.iter().flat_map(|alternative| bodies(alternative, &names));
            productions.extend(found.map(|body| (place(&names, &line.name), body)));
        }
        Meaning { names, productions }
    }

    /// For each name the strings of characters, none longer than that, which it derives: sets that grow until nothing is new.
    pub fn strings(&self, longest: usize) -> Vec<BTreeSet<Vec<u8>>> {
        let mut strings = vec![BTreeSet::new(); self.names.len()];
        loop {
            let mut grown = false;
            for (name, body) in &self.productions {
                for string in of_body(&strings, body, longest) {
                    grown |= strings[*name].insert(string);
                }
            }
            if !grown {
                return strings;
            }
        }
    }
}

fn of_body(strings: &[BTreeSet<Vec<u8>>], body: &[Symbol], longest: usize) -> BTreeSet<Vec<u8>> {
    let mut found = BTreeSet::from([vec![]]);
    for symbol in body {
        let single;
        let next = match symbol {
            Symbol::Name(name) => &strings[*name],
            Symbol::Character(byte) => {
                single = BTreeSet::from([vec![*byte]]);
                &single
            }
        };
        let joined = |first: &Vec<u8>| next.iter().map(|second| [&first[..], second].concat()).collect::<Vec<_>>();
        found = found.iter().flat_map(joined).filter(|string| string.len() <= longest).collect();
    }
    found
}
