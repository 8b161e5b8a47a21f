//! ABNF text by hand: what it says, and the offset at which it leaves the part.
#[path = "support/scanner.rs"]
mod scanner;
mod support;

use scanner::{lines, scan};
use support::abnf::{Element, Line};

fn exact(string: &str) -> Element {
    Element::Characters(string.bytes().map(|b| (b, false)).collect())
}

fn either(string: &str) -> Element {
    Element::Characters(string.bytes().map(|b| (b, true)).collect())
}

fn name(string: &str) -> Element {
    Element::Name(string.bytes().collect())
}

fn line(name: &str, adds: bool, alternatives: &[&[Element]]) -> Line {
    Line {
        name: name.bytes().collect(),
        adds,
        alternatives: alternatives.iter().map(|elements| elements.to_vec()).collect(),
    }
}

/// What the text says, in the older edition.
fn said(text: &str) -> Vec<Line> {
    assert_eq!(scan(false, text.as_bytes()), None, "{text:?}");
    lines(false, text.as_bytes())
}

/// A text that is refused, in the older edition: the offset is that of the sign ^, which is taken out.
fn refused(marked: &str) {
    let offset = marked.find('^').expect("a mark");
    let text = marked.replacen('^', "", 1);
    assert_eq!(scan(false, text.as_bytes()), Some(offset), "{text:?}");
}

#[test]
fn rules_say_names_marks_and_alternatives() {
    assert_eq!(
        said("tune = up / down step ; one notch\r\nUP=\"TU\"\r\ndown\t=/\t%x54.44;\r\n"),
        [
            line("tune", false, &[&[name("up")], &[name("down"), name("step")]]),
            line("UP", false, &[&[either("TU")]]),
            line("down", true, &[&[exact("TD")]]),
        ]
    );
}

#[test]
fn the_empty_string_has_no_characters() {
    assert_eq!(said("a=\"\"\r\n"), [line("a", false, &[&[either("")]])]);
}

#[test]
fn blanks_stand_around_signs_and_after_elements() {
    let plain = said("a=b/c d\r\n");
    for spaced in ["a \t= b / c\td \r\n", "a= b/ c  d\t;\r\n", "a =b /c d;=/%\"\r\n"] {
        assert_eq!(said(spaced), plain, "{spaced:?}");
    }
}

#[test]
fn values_have_digits_of_either_case_and_leading_zeros() {
    for value in ["%x4a", "%X4A", "%x004a", "%x0000000000000000000000004A"] {
        assert_eq!(said(&format!("a={value}\r\n")), [line("a", false, &[&[exact("J")]])], "{value}");
    }
    assert_eq!(
        said("a=%x0.fF.41\r\n"),
        [line("a", false, &[&[Element::Characters(vec![(0, false), (255, false), (65, false)])]])]
    );
}

#[test]
fn values_outside_are_refused_at_the_percent_sign() {
    for value in [
        "%x41-5A",
        "%x41-a",
        "%x41-42.43",
        "%x100",
        "%x41b",
        "%x41.100",
        "%x100.41",
        "%x100000041",
        "%x10000000000000041",
        "%d65",
        "%b1",
        "%s\"x\"",
        "%I\"x\"",
        "%x",
        "%xg",
        "%",
        "%x.41",
        "%41",
    ] {
        refused(&format!("a=^{value}\r\n"));
        refused(&format!("a=b ^{value}\r\n"));
    }
}

#[test]
fn what_does_not_go_on_is_refused_where_it_stops() {
    for value in [
        "%x41^-",
        "%x41^-g",
        "%x41.42^-43",
        "%x41^.",
        "%x41.42^.",
        "%x41^..42",
        "%x41^\"x\"",
        "\"x\"^b",
        "b^\"x\"",
        "b^%x41",
    ] {
        refused(&format!("a={value}\r\n"));
    }
}

#[test]
fn strings_that_do_not_end_are_refused_at_their_quote() {
    for string in ["^\"x", "^\"x\r\n\"", "^\"x\ty\"", "^\"x\u{7f}\"", "^\"", "\"\"^\"\"", "\"x\" ^\""] {
        refused(&format!("a={string}\r\n"));
    }
}

#[test]
fn lines_end_by_both_bytes() {
    refused("a=b^");
    refused("a=b ^");
    refused("a=b;c^");
    refused("a=b^\r");
    refused("a=b^\n");
    refused("a=b^\r\r\n");
    refused("a=b;c^\u{1}\r\n");
    refused("a=b;c^\u{7f}\r\n");
    refused("^");
    refused("a^");
    refused("a=^");
    refused("a=b/^");
}

#[test]
fn lines_without_a_rule_are_refused_at_their_start() {
    for line in ["^\r\n", "^ a=b\r\n", "^;c\r\n", "^ \r\n", "^=b\r\n", "^1a=b\r\n", "^-a=b\r\n"] {
        refused(line);
        refused(&format!("a=b\r\n{line}"));
    }
    refused("a=b\r\n^ / c\r\n");
}

#[test]
fn what_must_come_and_does_not_is_refused_where_it_should_stand() {
    refused("a^\r\n");
    refused("a ^;c\r\n");
    refused("a ^b\r\n");
    refused("a=^\r\n");
    refused("a= ^;c\r\n");
    refused("a=b/^\r\n");
    refused("a=b/^/c\r\n");
    refused("a= ^/b\r\n");
    refused("a=/^/b\r\n");
    refused("a =^=b\r\n");
    refused("^<a>\r\n");
    refused("a=^<a>\r\n");
    refused("a=^(b)\r\n");
    refused("a=^[b]\r\n");
    refused("a=^*b\r\n");
    refused("a=^2b\r\n");
    refused("a=b ^*c\r\n");
}

#[test]
fn the_newer_edition_has_prefixes() {
    let text = b"a=%s\"aB\" / %I\"aB\" / %S\"\" / %i\"\"\r\n";
    assert_eq!(scan(true, text), None);
    assert_eq!(lines(true, text), [line("a", false, &[&[exact("aB")], &[either("aB")], &[exact("")], &[either("")]])]);
    assert_eq!(scan(false, text), Some(2));
    for (refused, offset) in [("a=%s \"x\"\r\n", 2), ("a=%s\"x\r\n", 2), ("a=b %i\r\n", 4), ("a=%s%x41\r\n", 2)] {
        assert_eq!(scan(true, refused.as_bytes()), Some(offset), "{refused:?}");
    }
}

/// A grammar of ABNF in ABNF, a rule to a line. All before its first group is of the part.
#[test]
fn a_grammar_of_abnf_is_refused_at_its_first_group() {
    let grammar = "text = line / line text\r\n\
                   line = head sign choices ending ; blanks are left out\r\n\
                   choices = words / words \"/\" choices\r\n\
                   words = word / word %x20 words\r\n\
                   head = letter / letter more\r\n\
                   more = letter / digit / \"-\" / (letter / digit) more\r\n\
                   sign = \"=\" [\"/\"]\r\n\
                   ending = %x0D.0A\r\n";
    let group = grammar.find('(').expect("a group");
    assert_eq!(scan(false, grammar.as_bytes()), Some(group));
    let without = grammar.replace("(letter / digit) more", "letter more").replace("[\"/\"]", "\"/\"");
    assert_eq!(said(&without).len(), 8);
}
