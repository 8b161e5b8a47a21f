//! What messages say of random texts agrees with what the library says of them.
use super::needs::Needs;
use super::pieces::stage_at;
use super::said::{lines, lower};
use super::Abnf;
use ropeclover::{Refusal, RULES, VARIABLES};

/// Numbers that look random, by a seed.
struct Random(u64);

impl Random {
    fn below(&mut self, end: usize) -> usize {
        self.0 = self.0.wrapping_mul(6_364_136_223_846_793_005).wrapping_add(1_442_695_040_888_963_407);
        (self.0 >> 33) as usize % end
    }

    fn pick<'a>(&mut self, words: &[&'a str]) -> &'a str {
        words[self.below(words.len())]
    }
}

/// A text of the part with up to so many names, alternatives of a line and elements of these. A few names are without a rule, or out of order.
fn text(random: &mut Random, [names, alternatives, elements]: [usize; 3]) -> String {
    let names = 1 + random.below(names);
    let mut text = String::new();
    for line in 0..names + random.below(3) {
        let name = if line < names { line } else { random.below(names) };
        let mark = if (line < names) == (random.below(400) > 0) { "=" } else { "=/" };
        text += &format!("{}{name}{}{mark} ", random.pick(&["n", "N"]), random.pick(&["", " "]));
        for alternative in 0..1 + random.below(alternatives) {
            text += if alternative > 0 { random.pick(&["/", " / "]) } else { "" };
            for element in 0..1 + random.below(elements) {
                text += if element > 0 { random.pick(&[" ", "\t "]) } else { "" };
                match random.below(8 + names) {
                    0 => text += random.pick(&["\"\"", "\"f\"", "\"F-\"", "\"9A\"", "\";\"", "%x4d", "%X0d.41.0041"]),
                    1 => text += &format!("%x{:x}", random.below(256)),
                    2 if random.below(40) == 0 => text += "other",
                    _ => text += &format!("n{}", random.below(names)),
                }
            }
        }
        text += random.pick(&["\n", "\r\n", " \n", ";c \"=\n"]);
    }
    text
}

/// The text with a byte put in, taken out or replaced.
fn damaged(random: &mut Random, text: String) -> Vec<u8> {
    let mut bytes = text.into_bytes();
    let (at, byte) = (random.below(bytes.len()), b"a0%x\"=/ \t;-.\r\n\x00\xff<([*_"[random.below(21)]);
    match random.below(3) {
        0 => bytes.insert(at, byte),
        1 => drop(bytes.remove(at)),
        _ => bytes[at] = byte,
    }
    bytes
}

/// Whether what is counted is too much just where the library says so, and as much as it writes where it does not.
fn counted_alike(abnf: &Abnf, refusal: Option<Refusal>) {
    let needs = Needs::of(&abnf.file);
    let (variables, characters) = (needs.variables() > VARIABLES, needs.characters() > 32);
    let expected = match (variables, characters, needs.rules() > RULES) {
        (true, ..) => Some((18, 1)),
        (_, true, _) => Some((18, 2)),
        (.., true) => Some((7, 257)),
        _ => None,
    };
    let shown = String::from_utf8_lossy(&abnf.file);
    assert_eq!(refusal.map(|refusal| (refusal.number(), refusal.place())), expected, "{shown}");
    let firsts = [&needs.first_variable, &needs.first_character, &needs.first_rule].map(Option::is_some);
    assert_eq!(firsts, [variables, characters, needs.rules() > RULES], "{shown}");
    if let Some(grammar) = &abnf.grammar {
        assert_eq!(
            (grammar.job.len(), grammar.characters.len()),
            (4 * (1 + needs.rules()), needs.characters()),
            "{shown}"
        );
    }
}

/// Whether the name at the offset of a refusal is one that the message may speak of.
fn is_name_out_of_place(file: &[u8], offset: usize) -> bool {
    let lines = lines(file);
    let elements = lines.iter().flat_map(|line| &line.alternatives).flat_map(|alternative| &alternative.0);
    let heads: Vec<(String, bool)> = lines.iter().map(|line| (lower(file, &line.name), line.adds)).collect();
    if let Some(at) = lines.iter().position(|line| line.name.start == offset) {
        let above = heads[..at].iter().any(|(name, adds)| *name == heads[at].0 && !adds);
        return heads[at].1 != above;
    }
    let name = elements.map(|(_, place)| place).find(|place| place.start == offset);
    name.is_some_and(|place| heads.iter().all(|(name, _)| *name != lower(file, place)))
}

#[test]
fn random_texts() {
    let mut random = Random(8);
    let mut seen = [0; 6];
    for round in 0..20_000 {
        // The last have many rules and few symbols besides names.
        let most = [[3, 3, 3], [6, 6, 3], [12, 2, 5], [36, 2, 2], [16, 40, 2]][round % 5];
        let plain = text(&mut random, most);
        let file = if random.below(3) == 0 { damaged(&mut random, plain) } else { plain.into_bytes() };
        let (abnf, refusal) = Abnf::read(file);
        let offset = refusal.map_or(0, |refusal| refusal.place() as usize);
        let shown = String::from_utf8_lossy(&abnf.file);
        let kind = match refusal.map(Refusal::number) {
            Some(2) => 0,
            Some(16) => {
                assert!(stage_at(&abnf.file, offset).is_some(), "{offset}: {shown}");
                1
            }
            Some(17) => {
                assert!(is_name_out_of_place(&abnf.file, offset), "{offset}: {shown}");
                2
            }
            number => {
                counted_alike(&abnf, refusal);
                if number == Some(18) {
                    3
                } else {
                    4 + usize::from(number.is_none())
                }
            }
        };
        seen[kind] += 1;
    }
    // Each refusal, and texts that are read, are among them.
    assert!(seen[1..].iter().all(|count| *count > 100), "{seen:?}");
}
