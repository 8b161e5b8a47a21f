//! The scan of ABNF text and its cursor, through an archive of their own: no part of `support`, so that other tests do not link it.
use crate::support::abnf::{Character, Element, Line};

// What `./build scanner_cases` writes.
#[link(name = "scanner_cases", kind = "static")]
extern "C" {
    fn ropeclover_test_scan(newer: bool, text: *const u8, text_len: usize) -> u64;
    fn ropeclover_test_head(newer: bool, text: *const u8, text_len: usize, at: usize, answer: *mut u64);
    fn ropeclover_test_element(newer: bool, text: *const u8, text_len: usize, at: usize, answer: *mut u64);
    fn ropeclover_test_characters(text: *const u8, text_len: usize, at: usize, end: usize, answer: *mut u64);
    fn ropeclover_test_next_character(
        text: *const u8,
        text_len: usize,
        at: usize,
        end: usize,
        hex: bool,
        either: bool,
        answer: *mut u64,
    );
}

/// An answer of N numbers, written by a call.
fn answer<const N: usize>(call: impl FnOnce(*mut u64)) -> [usize; N] {
    let mut numbers = [u64::MAX; N];
    call(numbers.as_mut_ptr());
    numbers.map(|n| usize::try_from(n).expect("an offset or a small number"))
}

/// The offset at which a text leaves the part.
pub fn scan(newer: bool, text: &[u8]) -> Option<usize> {
    // SAFETY: the export reads the text and nothing else.
    match unsafe { ropeclover_test_scan(newer, text.as_ptr(), text.len()) } {
        u64::MAX => None,
        offset => Some(usize::try_from(offset).expect("an offset")),
    }
}

/// The lines of a text of the part, by the cursor.
pub fn lines(newer: bool, text: &[u8]) -> Vec<Line> {
    let mut lines = Vec::new();
    let mut at = 0;
    while at < text.len() {
        // SAFETY: a line of a text of the part begins here; the export writes three numbers.
        let [end, adds, body] = answer(|to| unsafe { ropeclover_test_head(newer, text.as_ptr(), text.len(), at, to) });
        let (alternatives, next) = alternatives(newer, text, body);
        lines.push(Line { name: text[at..end].to_vec(), adds: adds == 1, alternatives });
        at = next;
    }
    lines
}

/// The alternatives of a rule from its first element on, and where the next rule begins.
fn alternatives(newer: bool, text: &[u8], body: usize) -> (Vec<Vec<Element>>, usize) {
    let mut alternatives = vec![Vec::new()];
    let mut at = body;
    loop {
        // SAFETY: an element of a text of the part begins here; the export writes four numbers.
        let [literal, end, after, next] =
            answer(|to| unsafe { ropeclover_test_element(newer, text.as_ptr(), text.len(), at, to) });
        let element = if literal == 1 {
            Element::Characters(characters(text, at, end))
        } else {
            Element::Name(text[at..end].to_vec())
        };
        alternatives.last_mut().expect("there is one").push(element);
        match after {
            0 => {}
            1 => alternatives.push(Vec::new()),
            _ => return (alternatives, next),
        }
        at = next;
    }
}

/// The characters of a literal.
fn characters(text: &[u8], at: usize, end: usize) -> Vec<Character> {
    // SAFETY: a literal stands between the offsets; the export writes five numbers.
    let [mut at, end, hex, either, mut more] =
        answer(|to| unsafe { ropeclover_test_characters(text.as_ptr(), text.len(), at, end, to) });
    let mut characters = Vec::new();
    while more == 1 {
        // SAFETY: the numbers are those that the export before gave; it writes four.
        let [byte, of_either, rest, left] = answer(|to| unsafe {
            ropeclover_test_next_character(text.as_ptr(), text.len(), at, end, hex == 1, either == 1, to)
        });
        characters.push((u8::try_from(byte).expect("a byte"), of_either == 1));
        at = rest;
        more = left;
    }
    characters
}
