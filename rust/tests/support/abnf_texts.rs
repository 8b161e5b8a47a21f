//! Random texts of ABNF, of the part that is read, and damaged ones.
use super::Random;

/// A random text of the part of the newer edition, or of the older.
pub fn text(random: &mut Random, newer: bool) -> Vec<u8> {
    let mut text = Vec::new();
    for _ in 0..1 + random.below(4) {
        name(random, &mut text);
        blanks(random, &mut text);
        text.extend(if random.below(3) == 0 { &b"=/"[..] } else { b"=" });
        blanks(random, &mut text);
        for alternative in 0..1 + random.below(3) {
            if alternative > 0 {
                blanks(random, &mut text);
                text.push(b'/');
                blanks(random, &mut text);
            }
            for element in 0..1 + random.below(3) {
                if element > 0 {
                    text.push(*random.pick(b" \t"));
                    blanks(random, &mut text);
                }
                match random.below(3) {
                    0 => name(random, &mut text),
                    1 => string(random, &mut text, newer),
                    _ => value(random, &mut text),
                }
            }
        }
        blanks(random, &mut text);
        if random.below(4) == 0 {
            text.push(b';');
            any_of(random, &mut text, b"c =/;%\"\t!~", 6);
        }
        text.extend(b"\r\n");
    }
    text
}

fn any_of(random: &mut Random, text: &mut Vec<u8>, bytes: &[u8], most: usize) {
    for _ in 0..random.below(most + 1) {
        text.push(*random.pick(bytes));
    }
}

fn blanks(random: &mut Random, text: &mut Vec<u8>) {
    any_of(random, text, b" \t", 2);
}

fn name(random: &mut Random, text: &mut Vec<u8>) {
    text.push(*random.pick(b"aBfXz"));
    any_of(random, text, b"aBfXz09-", 3);
}

fn string(random: &mut Random, text: &mut Vec<u8>, newer: bool) {
    if newer && random.below(2) == 0 {
        text.push(b'%');
        text.push(*random.pick(b"sSiI"));
    }
    text.push(b'"');
    any_of(random, text, b"aZ !~#0%", 4);
    text.push(b'"');
}

fn value(random: &mut Random, text: &mut Vec<u8>) {
    text.push(b'%');
    text.push(*random.pick(b"xX"));
    for number in 0..1 + random.below(3) {
        if number > 0 {
            text.push(b'.');
        }
        any_of(random, text, b"0", 3);
        text.extend(format!("{:x}", random.below(256)).bytes().map(|b| match random.below(2) {
            0 => b.to_ascii_uppercase(),
            _ => b,
        }));
    }
}

/// The text with one to three changes: a byte put in, taken out or replaced, or a stretch of it repeated.
pub fn damaged(random: &mut Random, mut text: Vec<u8>) -> Vec<u8> {
    const BYTES: &[u8] = b"aF0xXsSiI%\"=/ \t;-.\r\n\x00\x7f\xff<([*1g~!#";
    for _ in 0..1 + random.below(3) {
        let at = random.below(text.len() + 1);
        match random.below(4) {
            0 => text.insert(at, *random.pick(BYTES)),
            1 if at < text.len() => drop(text.remove(at)),
            2 if at < text.len() => text[at] = *random.pick(BYTES),
            _ => {
                let from = random.below(text.len() + 1).min(at);
                let stretch: Vec<u8> = text[from..at].iter().copied().take(4).collect();
                text.splice(at..at, stretch);
            }
        }
    }
    text
}

/// The text with one to three letters or digits replaced by others, so that it is most often still of the part.
pub fn altered(random: &mut Random, mut text: Vec<u8>) -> Vec<u8> {
    for _ in 0..1 + random.below(3) {
        let at = random.below(text.len());
        match text[at] {
            b'0'..=b'9' => text[at] = *random.pick(b"0123456789"),
            b'a'..=b'z' | b'A'..=b'Z' => text[at] = *random.pick(b"abcdefABCDEFkzKZ"),
            _ => {}
        }
    }
    text
}

/// Any string of signs that matter.
pub fn noise(random: &mut Random) -> Vec<u8> {
    const WORDS: [&[u8]; 24] = [
        b"a", b"F", b"0", b"%x41", b"%x4", b"%xg", b"%s\"", b"%i\"k\"", b"\"k\"", b"\"", b"=", b"/", b"=/", b" ",
        b"\t", b";", b"\r\n", b"\r", b"\n", b".", b"-", b"41", b"%", b"a=",
    ];
    (0..random.below(9)).flat_map(|_| random.pick(&WORDS).to_vec()).collect()
}

/// A random text whose names have their rules, but for a fault now and then. Most are small; some have nearly as many names, characters or rules as a job
/// may have, or a few more.
pub fn grammar(random: &mut Random) -> Vec<u8> {
    let mut lines = match random.below(40) {
        0..=2 => many_names(random),
        3..=5 => many_characters(random),
        6 => many_rules(random),
        _ => few_of_each(random),
    };
    if random.one_in(8) {
        fault(random, &mut lines);
    }
    written(random, &lines)
}

/// A random small text without faults.
pub fn small(random: &mut Random) -> Vec<u8> {
    let lines = few_of_each(random);
    written(random, &lines)
}

/// A line: the number of its name, whether it adds to another, and its alternatives of spelled elements.
struct Rule {
    name: usize,
    adds: bool,
    alternatives: Vec<Vec<Spelled>>,
}

#[derive(Clone)]
enum Spelled {
    Name(usize),
    Text(String),
}

/// Names, one for each number, of which no two differ by case alone.
fn spelled_name(random: &mut Random, number: usize) -> String {
    let letter = char::from(b'a' + (number % 26) as u8);
    let rest = ["", "-", "-0", "z"][number / 26];
    let any_case = |c: char| if random.one_in(2) { c.to_ascii_uppercase() } else { c };
    format!("{letter}{rest}").chars().map(any_case).collect()
}

/// Each name defined once, with alternatives made at random, and some of them added to below.
fn rules(
    random: &mut Random,
    names: usize,
    added: usize,
    mut alternatives: impl FnMut(&mut Random) -> Vec<Vec<Spelled>>,
) -> Vec<Rule> {
    let mut lines: Vec<Rule> =
        (0..names).map(|name| Rule { name, adds: false, alternatives: alternatives(random) }).collect();
    random.shuffle(&mut lines);
    for _ in 0..added {
        let first = random.below(names);
        let (name, at) = (lines[first].name, first + 1 + random.below(lines.len() - first));
        lines.insert(at, Rule { name, adds: true, alternatives: alternatives(random) });
    }
    lines
}

fn few_of_each(random: &mut Random) -> Vec<Rule> {
    let names = 1 + random.below(4);
    let letters: Vec<u8> = (0..3).map(|_| *random.pick(b"abfzAFZ019 !~\\")).collect();
    let values: Vec<u8> = (0..4).map(|_| *random.pick(b"\x00\x01\r\n\x7f\x80\xff09aAfFzZ\"")).collect();
    let (added, most) = (random.below(3), 1 + random.below(3));
    let element = move |random: &mut Random| match random.below(6) {
        0..=2 => Spelled::Name(random.below(names)),
        3 | 4 => Spelled::Text(some_string(random, &letters)),
        _ => Spelled::Text(some_value(random, &values)),
    };
    rules(random, names, added, |random| {
        let alternative = |random: &mut Random| (0..1 + random.below(most)).map(|_| element(random)).collect();
        (0..1 + random.below(3)).map(|_| alternative(random)).collect()
    })
}

fn some_string(random: &mut Random, letters: &[u8]) -> String {
    let characters: String = (0..random.below(4)).map(|_| char::from(*random.pick(letters))).collect();
    format!("\"{characters}\"")
}

fn some_value(random: &mut Random, values: &[u8]) -> String {
    let number = |random: &mut Random| format!("{:02X}", random.pick(values));
    let numbers: Vec<String> = (0..1 + random.below(3)).map(|_| number(random)).collect();
    format!("%x{}", numbers.join("."))
}

fn many_names(random: &mut Random) -> Vec<Rule> {
    let names = 29 + random.below(6);
    rules(random, names, 0, |random| match random.below(9) {
        0 => vec![vec![Spelled::Text("\"kk\"".into())]],
        1..=3 => vec![vec![Spelled::Text("\"\"".into())]],
        _ => vec![vec![Spelled::Name(random.below(names)), Spelled::Name(random.below(names))]],
    })
}

fn many_characters(random: &mut Random) -> Vec<Rule> {
    let mut values: Vec<u8> = (0..=255).collect();
    random.shuffle(&mut values);
    values.truncate(22 + random.below(12));
    let letters = (b'q'..).take(random.below(6)).map(|letter| format!("\"{}\"", char::from(letter)));
    let mut texts: Vec<String> = values.iter().map(|byte| format!("%x{byte:x}")).chain(letters).collect();
    random.shuffle(&mut texts);
    // Alone, or so many in a row that the tails may be too many, too.
    let alternatives = texts.chunks(*random.pick(&[1, 1, 1, 40]));
    let alternatives = alternatives.map(|row| row.iter().cloned().map(Spelled::Text).collect()).collect();
    vec![Rule { name: 0, adds: false, alternatives }]
}

fn many_rules(random: &mut Random) -> Vec<Rule> {
    let (names, characters) = (8 + random.below(8), 4 + random.below(12));
    let pairs = 250 + random.below(60);
    let symbol = move |random: &mut Random| match random.one_in(2) {
        true => Spelled::Name(random.below(names)),
        false => Spelled::Text(format!("%x{:X}", 0x30 + random.below(characters))),
    };
    let mut lines = rules(random, names, 0, |_| vec![vec![Spelled::Text("\"\"".into())]]);
    for _ in 0..pairs {
        let line = random.below(names);
        lines[line].alternatives.push(vec![symbol(random), symbol(random)]);
    }
    lines
}

/// Takes a line away, or puts the wrong sign into it.
fn fault(random: &mut Random, lines: &mut Vec<Rule>) {
    let at = random.below(lines.len());
    match random.one_in(2) && lines.len() > 1 {
        true => drop(lines.remove(at)),
        false => lines[at].adds ^= true,
    }
}

fn written(random: &mut Random, lines: &[Rule]) -> Vec<u8> {
    let mut text = Vec::new();
    for line in lines {
        text.extend(spelled_name(random, line.name).bytes());
        blanks(random, &mut text);
        text.extend(if line.adds { &b"=/"[..] } else { b"=" });
        for (number, alternative) in line.alternatives.iter().enumerate() {
            if number > 0 {
                blanks(random, &mut text);
                text.push(b'/');
            }
            blanks(random, &mut text);
            for (number, element) in alternative.iter().enumerate() {
                if number > 0 {
                    text.push(*random.pick(b" \t"));
                }
                match element {
                    Spelled::Name(number) => text.extend(spelled_name(random, *number).bytes()),
                    Spelled::Text(spelled) => text.extend(spelled.bytes()),
                }
            }
        }
        if random.one_in(6) {
            text.extend(b" ; c");
        }
        text.extend(b"\r\n");
    }
    text
}

/// A random text of few characters, in which no alternative is empty, one name or one letter: so no rule of its job is empty or leads from a variable to a
/// variable.
pub fn without_units(random: &mut Random) -> Vec<u8> {
    const ALONE: [&str; 4] = ["%x61", "%x41", "\"1\"", "%x42"];
    const BESIDE: [&str; 5] = ["\"a\"", "\"B\"", "%x61", "%x42", "\"1\""];
    let (names, added) = (1 + random.below(3), random.below(2));
    let text = |spelled: &&str| Spelled::Text(spelled.to_string());
    let lines = rules(random, names, added, |random| {
        let alternative = |random: &mut Random| match random.one_in(2) {
            true => vec![text(random.pick(&ALONE))],
            false => (0..2 + random.below(3))
                .map(|_| match random.one_in(2) {
                    true => Spelled::Name(random.below(names)),
                    false => text(random.pick(&BESIDE)),
                })
                .collect(),
        };
        (0..2 + random.below(3)).map(|_| alternative(random)).collect()
    });
    written(random, &lines)
}
