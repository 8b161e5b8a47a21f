//! Reading ABNF text as a job once more, written apart from the library and from the request's words: the lines are those of the reader by recursive
//! descent, names are looked up in a map, and the rules are put into a set that keeps them in order. The benchmarks compare with it, too.
use super::abnf::{read_with_places, Element, Line};
use std::collections::{BTreeSet, HashMap};
use std::ops::Range;

/// A number and a place.
type Refused = (u64, u64);

/// What stands in a body: a name's or a letter's variable; a character, whose terminal depends on all that are used.
#[derive(Clone, Copy)]
enum Item {
    Variable(usize),
    Character(u8),
}

/// One alternative of a name.
struct Body {
    head: usize,
    items: Vec<Item>,
    /// The variables of its tails.
    tails: Range<usize>,
}

/// What is written of a text that is not refused.
pub struct Written {
    pub characters: Vec<u8>,
    pub job: Vec<u8>,
}

/// The numbers of all names in the order of the text, each time that one stands there; or 17 at the first that is out of place.
fn numbered(text: &[u8], lines: &[Line], places: &[usize]) -> Result<Vec<usize>, Refused> {
    let lower = text.to_ascii_lowercase();
    let mut places = places.iter().copied();
    let mut next = |name: &[u8]| {
        let at = places.next().expect("a place for each name");
        (at, &lower[at..at + name.len()])
    };
    // Where each name stands, and whether it is a head; the heads are counted as they come.
    let (mut uses, mut numbers) = (vec![], HashMap::new());
    for line in lines {
        let head = next(&line.name);
        let count = numbers.len();
        numbers.entry(head.1).or_insert(count);
        uses.push((head, Some(line.adds)));
        for element in line.alternatives.iter().flatten() {
            if let Element::Name(name) = element {
                uses.push((next(name), None));
            }
        }
    }
    let mut is_defined = vec![false; numbers.len()];
    let number = |((at, name), adds): ((usize, &[u8]), Option<bool>)| {
        let refused = (17, at as u64);
        let number = *numbers.get(name).ok_or(refused)?;
        // Only the first rule of a name is one that defines it.
        if adds.is_some_and(|adds| adds != std::mem::replace(&mut is_defined[number], true)) {
            return Err(refused);
        }
        Ok(number)
    };
    uses.into_iter().map(number).collect()
}

/// The bodies, and what they take.
struct Bodies {
    bodies: Vec<Body>,
    /// How many variables are taken.
    variables: usize,
    letters: [Option<usize>; 26],
    used: [bool; 256],
}

impl Bodies {
    /// Those of lines, by the numbers of their names in the order of the text.
    fn of(lines: &[Line], numbers: &[usize]) -> Bodies {
        let names = numbers.iter().max().map_or(0, |last| last + 1);
        let mut found = Bodies { bodies: vec![], variables: names, letters: [None; 26], used: [false; 256] };
        let mut numbers = numbers.iter().copied();
        for line in lines {
            let head = numbers.next().expect("a number for each name");
            for alternative in &line.alternatives {
                found.body(head, alternative, &mut numbers);
            }
        }
        found
    }

    /// Takes a body: variables for its letters first, then for its tails, of which one of n symbols has n - 2.
    fn body(&mut self, head: usize, alternative: &[Element], numbers: &mut impl Iterator<Item = usize>) {
        let mut items = vec![];
        for element in alternative {
            match element {
                Element::Name(_) => items.push(Item::Variable(numbers.next().expect("a number for each name"))),
                Element::Characters(characters) => {
                    items.extend(characters.iter().map(|(byte, either)| self.character(*byte, *either)));
                }
            }
        }
        let tails = self.variables..self.variables + items.len().saturating_sub(2);
        self.variables = tails.end;
        self.bodies.push(Body { head, items, tails });
    }

    fn character(&mut self, byte: u8, either: bool) -> Item {
        if !(either && byte.is_ascii_alphabetic()) {
            self.used[usize::from(byte)] = true;
            return Item::Character(byte);
        }
        let letter = &mut self.letters[usize::from(byte.to_ascii_lowercase() - b'a')];
        Item::Variable(*letter.get_or_insert_with(|| {
            self.used[usize::from(byte.to_ascii_lowercase())] = true;
            self.used[usize::from(byte.to_ascii_uppercase())] = true;
            self.variables += 1;
            self.variables - 1
        }))
    }
}

/// A rule as it is sorted: head, kind, second and third field.
type Rule = [u8; 4];

/// The rules of a body. Each of its symbols but the last two stands before a tail.
fn split(body: &Body, terminals: &[u8; 256], rules: &mut BTreeSet<Rule>) {
    let symbol = |item: Item| match item {
        Item::Variable(variable) => variable as u8,
        Item::Character(byte) => terminals[usize::from(byte)],
    };
    let mut head = body.head as u8;
    match body.items[..] {
        [] => drop(rules.insert([head, b'E', 0, 0])),
        [only] => drop(rules.insert([head, b'U', symbol(only), 0])),
        [ref front @ .., before, last] => {
            for (item, tail) in front.iter().zip(body.tails.clone()) {
                rules.insert([head, b'P', symbol(*item), tail as u8]);
                head = tail as u8;
            }
            rules.insert([head, b'P', symbol(before), symbol(last)]);
        }
    }
}

/// The rules, of at most 32 variables and 32 characters.
fn rules(found: &Bodies, characters: &[u8]) -> BTreeSet<Rule> {
    let mut terminals = [0; 256];
    for (character, terminal) in characters.iter().zip(32..) {
        terminals[usize::from(*character)] = terminal;
    }
    let mut rules = BTreeSet::new();
    for (letter, variable) in (b'a'..=b'z').zip(found.letters) {
        let Some(variable) = variable else { continue };
        for case in [letter, letter.to_ascii_uppercase()] {
            rules.insert([variable as u8, b'U', terminals[usize::from(case)], 0]);
        }
    }
    for body in &found.bodies {
        split(body, &terminals, &mut rules);
    }
    rules
}

/// What is written of a text, by the lengths of a map and of a buffer.
pub fn written(text: &[u8], map: usize, room: usize) -> Result<Written, Refused> {
    if map < 32 {
        return Err((10, 3));
    }
    if text.len() > 16_384 {
        return Err((2, text.len() as u64));
    }
    let (lines, places) = read_with_places(false, text).map_err(|offset| (16, offset as u64))?;
    let found = Bodies::of(&lines, &numbered(text, &lines, &places)?);
    let characters: Vec<u8> = (0..=255).filter(|character| found.used[usize::from(*character)]).collect();
    for (needed, place) in [(found.variables, 1), (characters.len(), 2)] {
        if needed > 32 {
            return Err((18, place));
        }
    }
    let rules = rules(&found, &characters);
    if rules.len() > 256 {
        return Err((7, 257));
    }
    if room < 4 + 4 * rules.len() {
        return Err((13, 1 + rules.len() as u64));
    }
    let records = rules.iter().flat_map(|[head, kind, second, third]| [*kind, *head, *second, *third]);
    Ok(Written { characters, job: b"S\0\0\0".iter().copied().chain(records).collect() })
}

/// A call: the answer, with what is written into the map and the buffer.
pub fn read_abnf(text: &[u8], map: &mut [u8], job: &mut [u8]) -> [u64; 4] {
    match written(text, map.len(), job.len()) {
        Err((number, place)) => [number, place, 0, 0],
        Ok(written) => {
            let (records, characters) = (written.job.len() / 4, written.characters.len());
            job[..4 * records].copy_from_slice(&written.job);
            map[..characters].copy_from_slice(&written.characters);
            map[characters..32].fill(0);
            [0, 0, records as u64, characters as u64]
        }
    }
}

/// What the variables of a text that is not refused are called, by the wrapper's words: rules as where they are first defined, letters in both cases,
/// tails by the place in the body where they begin, and by the body from a name's second long one on.
pub fn variable_names(text: &[u8]) -> Vec<String> {
    let (lines, places) = read_with_places(false, text).expect("a text of the part");
    let numbers = numbered(text, &lines, &places).expect("a text without a name out of place");
    let found = Bodies::of(&lines, &numbers);
    let mut called: Vec<String> = vec![];
    for line in &lines {
        let name = String::from_utf8_lossy(&line.name);
        if !called.iter().any(|other| other.eq_ignore_ascii_case(&name)) {
            called.push(name.into());
        }
    }
    called.resize(found.variables, String::new());
    for (letter, variable) in ('a'..='z').zip(found.letters) {
        if let Some(variable) = variable {
            called[variable] = format!("\"{letter}\"/\"{}\"", letter.to_ascii_uppercase());
        }
    }
    let mut long_bodies = vec![0; found.variables];
    for body in found.bodies.iter().filter(|body| !body.tails.is_empty()) {
        long_bodies[body.head] += 1;
        let which = if long_bodies[body.head] > 1 { format!(".{}", long_bodies[body.head]) } else { String::new() };
        for (tail, from) in body.tails.clone().zip(2..) {
            called[tail] = format!("{}{which}.{from}", called[body.head]);
        }
    }
    called
}
