//! Reading ABNF text by hand: the numbers of names, letters, tails and characters, worked out from the request; where a text is refused, and by what; every
//! limit exactly; the names of symbols.
mod support;

use ropeclover::text::{assemble, print, read};
use ropeclover::{abnf_grammar, read_abnf, TextRead, COPY_BYTES};
use support::Guarded;

const FILL: u8 = 7;

/// Compares what is read from a text with a job, given as text, and with characters; at lengths that are just enough, and longer ones.
fn reads_bytes(text: &[u8], job: &str, characters: &[u8]) {
    let expected = assemble(job).unwrap();
    let answer = Ok(TextRead { records: expected.len() / 4, characters: characters.len() });
    for spare in [0, 1, 9] {
        let (mut map, mut out) =
            (Guarded::new(&vec![FILL; 32 + spare], 0xa5), Guarded::new(&vec![FILL; expected.len() + spare], 0xa5));
        let shown = String::from_utf8_lossy(text);
        assert_eq!(read_abnf(text, map.get_mut(), out.get_mut()), answer, "{shown}");
        let mut mapped = characters.to_vec();
        mapped.resize(32, 0);
        mapped.resize(32 + spare, FILL);
        assert_eq!(map.get(), mapped, "the map of {shown}");
        assert_eq!(out.get(), [&expected[..], &vec![FILL; spare]].concat(), "the job of {shown}");
        map.check();
        out.check();
    }
}

fn reads(text: &str, job: &str, characters: &[u8]) {
    reads_bytes(text.as_bytes(), job, characters);
}

/// The number and place that refuse a text, with a map and a buffer of these lengths, which are left as they were.
fn refusal_with(text: &[u8], map: usize, room: usize) -> (u64, u64) {
    let (mut map, mut job) = (Guarded::new(&vec![FILL; map], 0xa5), Guarded::new(&vec![FILL; room], 0xa5));
    let refusal = read_abnf(text, map.get_mut(), job.get_mut()).expect_err(&String::from_utf8_lossy(text));
    assert!(map.get().iter().chain(job.get()).all(|byte| *byte == FILL), "nothing is written");
    map.check();
    job.check();
    (refusal.number(), refusal.place())
}

fn refusal(text: &[u8]) -> (u64, u64) {
    refusal_with(text, 32, COPY_BYTES)
}

/// A text is refused by a number at the sign ^, which is taken out.
fn refused(number: u64, marked: &str) {
    let offset = marked.find('^').expect("a mark");
    let text = marked.replacen('^', "", 1);
    for room in [0, COPY_BYTES] {
        assert_eq!(refusal_with(text.as_bytes(), 32, room), (number, offset as u64), "{text:?}");
    }
}

/// In the order in which they first begin a line, not in that in which they are first mentioned. The first is the start symbol.
#[test]
fn numbers_of_names() {
    reads("a=c b\r\nb=\"\"\r\nc=\"\"\r\n", "S 0\nP 0 2 1\nE 1\nE 2\n", b"");
    reads("z=z\r\na=z\r\n", "S 0\nU 0 0\nU 1 0\n", b"");
    reads("b=a\r\na=b\r\nb=/a a\r\n", "S 0\nP 0 1 1\nU 0 1\nU 1 0\n", b"");
}

#[test]
fn names_have_no_case() {
    reads("Tone=tONE/dIGIT-2\r\ndigit-2=TONE\r\ntonE=/\"\"\r\n", "S 0\nE 0\nU 0 0\nU 0 1\nU 1 0\n", b"");
}

/// A digit or a dash makes another name.
#[test]
fn names_are_whole_words() {
    reads("a=a- a1 a-1\r\na-=\"\"\r\na1=\"\"\r\na-1=\"\"\r\n", "S 0\nP 0 1 4\nE 1\nE 2\nE 3\nP 4 2 3\n", b"");
}

/// Alternatives of =/ lines are those of the name, wherever they stand below it.
#[test]
fn rules_are_added_to() {
    let together = "S 0\nE 0\nU 0 1\nU 0 32\nE 1\n";
    for text in [
        "a=b/%x41/\"\"\r\nb=\"\"\r\n",
        "a=b\r\na=/%x41\r\na=/\"\"\r\nb=\"\"\r\n",
        "a=\"\"\r\nb=\"\"\r\nA=/%x41/b\r\n",
        "a = b ; first\r\nb\t=\t\"\"\t;\r\na =/ \"\" / %X041\r\n",
    ] {
        reads(text, together, b"A");
    }
}

/// The characters used are the terminals in ascending order, not in the order of use.
#[test]
fn numbers_of_characters() {
    reads("a=%x7A.41\r\n", "S 0\nP 0 33 32\n", b"Az");
    reads("a=%xFF / \"~\" / %x0 / \" \"\r\n", "S 0\nU 0 32\nU 0 33\nU 0 34\nU 0 35\n", b"\0 ~\xff");
    reads("a=b\r\nb=\"21\"\r\nc=\"0\"\r\n", "S 0\nU 0 1\nP 1 34 33\nU 2 32\n", b"012");
}

/// NUL is a character like any other: the number says where the map ends.
#[test]
fn nul_is_a_character() {
    reads("a=%x00\r\n", "S 0\nU 0 32\n", b"\0");
    reads("a=%x01.0\r\n", "S 0\nP 0 33 32\n", b"\0\x01");
    reads("a=\"\"\r\n", "S 0\nE 0\n", b"");
}

/// Also those of a name that is never reached.
#[test]
fn every_character_counts() {
    reads("a=%x42\r\nb=\"c\" %x41\r\n", "S 0\nU 0 33\nP 1 2 32\nU 2 34\nU 2 35\n", b"ABCc");
}

/// A body that is one letter takes its variable, too, whichever case it is spelled in; one that is a value or no letter takes none.
#[test]
fn a_letter_stands_for_both_cases() {
    for text in ["a=\"f\"\r\n", "a=\"F\"\r\n", "a=\"f\"/\"F\"\r\n"] {
        reads(text, "S 0\nU 0 1\nU 1 32\nU 1 33\n", b"Ff");
    }
    reads("a=\"1\"/\"[\"/\"@\"/\"`\"/\"{\"\r\n", "S 0\nU 0 32\nU 0 33\nU 0 34\nU 0 35\nU 0 36\n", b"1@[`{");
}

#[test]
fn a_value_is_one_character() {
    reads("a=%x66\r\n", "S 0\nU 0 32\n", b"f");
    reads("a=%x66.46\r\n", "S 0\nP 0 33 32\n", b"Ff");
    // The letter of the string is a variable, those of the value are the same two terminals.
    reads("a=%x46 \"f\" / %x66\r\n", "S 0\nP 0 32 1\nU 0 33\nU 1 32\nU 1 33\n", b"Ff");
}

/// One variable in the whole text: a letter that is met is not taken again, in a later body or line.
#[test]
fn a_letter_is_taken_once() {
    reads(
        "a=\"fF\"/\"gf\"\r\nb=\"Fg\"\r\n",
        "S 0\nP 0 2 2\nP 0 3 2\nP 1 2 3\nU 2 32\nU 2 34\nU 3 33\nU 3 35\n",
        b"FGfg",
    );
}

/// A body of n symbols takes n - 2 tails, longest first; characters stand in them as they are.
#[test]
fn tails() {
    reads("a=%x31.32.33\r\n", "S 0\nP 0 32 1\nP 1 33 34\n", b"123");
    reads("a=%x31 a \"22\" a\r\n", "S 0\nP 0 32 1\nP 1 0 2\nP 2 33 3\nP 3 33 0\n", b"12");
}

/// Within a body the letters come first, left to right, then the tails.
#[test]
fn letters_come_before_tails() {
    reads("a=\"xy1\"\r\n", "S 0\nP 0 1 3\nU 1 33\nU 1 35\nU 2 34\nU 2 36\nP 3 2 32\n", b"1XYxy");
    // The second body's letter comes behind the first one's tail.
    reads(
        "a=\"y11\"/\"x11\"\r\n",
        "S 0\nP 0 1 2\nP 0 3 4\nU 1 34\nU 1 36\nP 2 32 32\nU 3 33\nU 3 35\nP 4 32 32\n",
        b"1XYxy",
    );
}

/// Body after body in the order of the text, whichever name it is of.
#[test]
fn fresh_variables_follow_the_text() {
    reads(
        "b=%x1.2.3\r\na=%x1.1.1\r\nb=/%x3.2.1\r\n",
        "S 0\nP 0 32 2\nP 0 34 4\nP 1 32 3\nP 2 33 34\nP 3 32 32\nP 4 33 32\n",
        b"\x01\x02\x03",
    );
}

/// Tails are never shared, also where two alternatives are equal; their rules are different ones then.
#[test]
fn equal_alternatives_have_tails_of_their_own() {
    reads("a=%x31.32.33/%x31.32.33\r\n", "S 0\nP 0 32 1\nP 0 32 2\nP 1 33 34\nP 2 33 34\n", b"123");
}

#[test]
fn a_rule_is_written_once() {
    reads("a=a/a/A/\"\" a/a \"\"\r\na=/\"\"/\"\" \"\"\r\n", "S 0\nE 0\nU 0 0\n", b"");
    reads("a=\"11\"/%x31.31/\"1\" \"1\"/%x31 \"1\"\r\n", "S 0\nP 0 32 32\n", b"1");
}

/// By field 1, kind letter, fields 2 and 3.
#[test]
fn rules_stand_by_their_ranks() {
    reads(
        "b=\"2\"/\"1\"/a/b/\"\"/b b/b \"1\"/\"1\" b/a b\r\na=%x31\r\n",
        "S 0\nE 0\nP 0 0 0\nP 0 0 32\nP 0 1 0\nP 0 32 0\nU 0 0\nU 0 1\nU 0 32\nU 0 33\nU 1 32\n",
        b"12",
    );
}

/// Strings and values of several characters and elements beside them make one body; "" is none of its symbols.
#[test]
fn elements_are_joined() {
    for text in ["a=\"12\" %x33\r\n", "a=\"1\" \"\" %x32.33\r\n", "a=%x31 \t%x32\t\"3\"\r\n", "a=\"\" \"123\" \"\"\r\n"]
    {
        reads(text, "S 0\nP 0 32 1\nP 1 33 34\n", b"123");
    }
}

#[test]
fn values_outside_are_refused_at_the_percent_sign() {
    for value in [
        "%x41-5A",
        "%x41-a",
        "%x41-42.43",
        "%x100",
        "%x41b",
        "%x41.100",
        "%d65",
        "%s\"x\"",
        "%i\"x\"",
        "%b1",
        "%x",
        "%x100000041",
        "%x10000000000000041",
        "%xG",
        "%",
    ] {
        refused(16, &format!("a=^{value}\r\n"));
        refused(16, &format!("a=\"\" / a ^{value} a\r\n"));
    }
    reads("a=%x0041\r\n", "S 0\nU 0 32\n", b"A");
    reads("a=%X41\r\n", "S 0\nU 0 32\n", b"A");
}

#[test]
fn values_that_do_not_go_on_are_refused_where_they_stop() {
    for value in ["%x41^-", "%x41^-g", "%x41.42^-43", "%x41^.", "%x41.42^.", "%x41^.g", "%x41^..42"] {
        refused(16, &format!("a={value}\r\n"));
    }
}

#[test]
fn strings_outside_are_refused_at_the_quote() {
    for string in ["^\"", "^\"x", "^\"x\ty\"", "^\"x\u{7f}\"", "^\"\u{e9}\"", "\"\" ^\"x"] {
        refused(16, &format!("a={string}\r\n"));
    }
    reads("a=\" ~\"\r\n", "S 0\nP 0 32 33\n", b" ~");
}

#[test]
fn line_ends_and_comments() {
    for marked in
        ["^", "a=a^", "a=a^\r", "a=a^\n", "a=a^\rb", "a=a;c^", "a=a;c^\u{1}\r\n", "a=a;c^\u{7f}\r\n", "a=a;c^\r"]
    {
        refused(16, marked);
    }
    reads("a=a; \t!~;\"%\r\n", "S 0\nU 0 0\n", b"");
}

#[test]
fn lines_without_a_rule_are_refused_at_their_start() {
    for line in ["^\r\n", "^ \r\n", "^;c\r\n", "^ ;c\r\n", "^ a=a\r\n", "^\ta=a\r\n", "^<a>\r\n", "^=a\r\n", "^1=a\r\n"]
    {
        refused(16, line);
        refused(16, &format!("a=a\r\n{line}"));
    }
    refused(16, "a=a\r\n^ / a\r\n");
    refused(16, "a=a /^\r\n a\r\n");
}

#[test]
fn what_is_due_is_refused_where_it_should_stand() {
    for marked in [
        "a^\r\n",
        "a ^a\r\n",
        "a^;c\r\n",
        "a=^\r\n",
        "a= ^;c\r\n",
        "a=^<a>\r\n",
        "a=^(a)\r\n",
        "a=^[a]\r\n",
        "a=^*a\r\n",
        "a=^1a\r\n",
        "a=a^(a)\r\n",
        "a=a / ^\r\n",
        "a=a/^/a\r\n",
        "a=/^/a\r\n",
        "a=^=a\r\n",
        "a=a ^=a\r\n",
        "a= ^/a\r\n",
        "a=\"x\"^a\r\n",
        "a=\"x\"^\"y\"\r\n",
        "a=a^%x41\r\n",
        "a=%x41^\"y\"\r\n",
        "a=a a^\"\"\r\n",
    ] {
        refused(16, marked);
    }
}

#[test]
fn names_out_of_place() {
    // No rule.
    refused(17, "a=^b\r\n");
    refused(17, "a=a ^b c\r\n");
    refused(17, "a=\"\" / ^ALPHA\r\n");
    refused(17, "a=a\r\nb=a ^DIGIT\r\n");
    refused(17, "a=a\r\nb=^a-\r\n");
    // =/ with no = above it.
    refused(17, "^a=/a\r\n");
    refused(17, "b=b\r\n^a=/a\r\na=a\r\n");
    // = with one above.
    refused(17, "a=a\r\n^A=a\r\n");
    refused(17, "a=a\r\na=/a\r\n^a=a\r\n");
}

/// The smallest offset of all three offences, which is the name's own.
#[test]
fn the_first_name_out_of_place() {
    refused(17, "a=^b\r\na=c\r\n");
    refused(17, "a=\"\"\r\n^a=b\r\n");
    refused(17, "a=\"\" / ^c\r\nb=/c\r\n");
    refused(17, "^b=/c\r\na=a\r\n");
    // A name that has only =/ lines has a rule: its mention is no offence.
    refused(17, "b=a\r\n^a=/\"\"\r\n");
    refused(17, "b=a ^c\r\na=/\"\"\r\n");
}

/// A text with this many names, each with the empty body.
fn names(count: usize) -> String {
    (0..count).map(|n| format!("n{n}=\"\"\r\n")).collect()
}

/// The characters of numbers as values with dots.
fn values(numbers: impl IntoIterator<Item = usize>) -> String {
    let numbers: Vec<String> = numbers.into_iter().map(|n| format!("{n:X}")).collect();
    format!("%x{}", numbers.join("."))
}

/// The same as alternatives of one character.
fn alternatives(numbers: impl IntoIterator<Item = usize>) -> String {
    numbers.into_iter().map(|n| format!("%x{n:X}")).collect::<Vec<_>>().join("/")
}

/// How many records and characters a text gives.
fn counts(text: &str) -> (usize, usize) {
    let read = abnf_grammar(text.as_bytes()).expect(text);
    (read.job.len() / 4, read.characters.len())
}

#[test]
fn thirty_two_names() {
    assert_eq!(counts(&names(32)), (33, 0));
    assert_eq!(refusal(names(33).as_bytes()), (18, 1));
    assert_eq!(refusal(names(1_500).as_bytes()), (18, 1));
    // A name is counted once, however often it is defined and spelled.
    let added: String = (0..500).map(|n| format!("N{}=/n31\r\n", n % 32)).collect();
    assert_eq!(counts(&(names(32) + &added)), (65, 0));
}

/// A letter takes a variable and two characters: sixteen are the most.
#[test]
fn letters_to_the_limit() {
    let letters = |count: usize| {
        let strings: Vec<String> = ('a'..='z').take(count).map(|letter| format!("\"{letter}\"")).collect();
        strings.join("/")
    };
    assert_eq!(counts(&format!("a={}\r\n", letters(16))), (1 + 16 + 32, 32));
    assert_eq!(refusal(format!("a={}\r\n", letters(17)).as_bytes()), (18, 2));
    // 16 names and 16 letters are 32 variables, 17 and 16 are 33. A letter again takes nothing.
    let text = |count: usize| names(count) + &format!("n0=/{}/{}\r\n", letters(16), letters(16).to_ascii_uppercase());
    assert_eq!(counts(&text(16)), (1 + 16 + 16 + 32, 32));
    assert_eq!(refusal(text(17).as_bytes()), (18, 1));
    // All letters are too many characters; with 7 names they are too many variables first.
    assert_eq!(refusal((names(6) + &format!("n0=/{}\r\n", letters(26))).as_bytes()), (18, 2));
    assert_eq!(refusal((names(7) + &format!("n0=/{}\r\n", letters(26))).as_bytes()), (18, 1));
    // Two bodies of eight letters have twelve tails: 1 name, 16 letters and 12 tails are 29. A letter again is no character more, another value is.
    let bodies = String::from("a=\"abcdefgh\"/\"PQRSTUVW\"\r\n");
    assert_eq!(counts(&bodies), (1 + 14 + 32, 32));
    assert_eq!(counts(&(bodies.clone() + "b=\"Q\"\r\n")), (1 + 14 + 32 + 1, 32));
    assert_eq!(refusal((bodies + "b=\"Q\"/%x1\r\n").as_bytes()), (18, 2));
}

/// A body of n symbols takes n - 2.
#[test]
fn tails_to_the_limit() {
    assert_eq!(counts(&format!("a={}\r\n", values((0..33).map(|n| n % 32)))), (33, 32));
    assert_eq!(refusal(format!("a={}\r\n", values((0..34).map(|n| n % 32))).as_bytes()), (18, 1));
    let body = |length: usize| format!("\"{}\"", "1".repeat(length));
    assert_eq!(counts(&format!("a={}\r\n", body(33))), (33, 1));
    assert_eq!(refusal(format!("a={}\r\n", body(34)).as_bytes()), (18, 1));
    assert_eq!(refusal(format!("a={}\r\n", body(10_000)).as_bytes()), (18, 1));
    // 2 names, 15 tails, a letter, 14 tails: 32.
    assert_eq!(counts(&format!("a={}\r\nb={} \"k\"\r\n", body(17), body(15))), (1 + 16 + 15 + 2, 3));
    assert_eq!(refusal(format!("a={}\r\nb={} \"k\"\r\n", body(17), body(16)).as_bytes()), (18, 1));
    // Equal alternatives take their tails each, though no more symbols are used: 1 + 31 tails, and one more.
    let equal = |count: usize| format!("a={}\r\n", vec![body(3); count].join("/"));
    assert_eq!(counts(&equal(31)), (1 + 62, 1));
    assert_eq!(refusal(equal(32).as_bytes()), (18, 1));
}

#[test]
fn thirty_two_characters() {
    assert_eq!(counts(&format!("a={}\r\n", alternatives(0..32))), (33, 32));
    assert_eq!(counts(&format!("a={}\r\n", alternatives(224..256))), (33, 32));
    assert_eq!(refusal(format!("a={}\r\n", alternatives(0..33)).as_bytes()), (18, 2));
    assert_eq!(refusal(format!("a={}\r\n", alternatives(0..256)).as_bytes()), (18, 2));
    // A character is counted once: as a value, in a string, and as a case of a letter.
    let text = |last: usize| format!("a={}/\"k\"/\"5\"/%x4b/%x6B/%x35/\"K\"\r\n", alternatives(1..last));
    assert_eq!(counts(&text(30)), (1 + 29 + 1 + 3 + 2, 32));
    assert_eq!(refusal(text(31).as_bytes()), (18, 2));
    // A value takes one character, a letter of a string two.
    assert_eq!(counts(&format!("a={}/%x4B\r\n", alternatives(1..32))), (1 + 32, 32));
    assert_eq!(refusal(format!("a={}/\"k\"\r\n", alternatives(1..32)).as_bytes()), (18, 2));
    // Also of a name that is never reached.
    assert_eq!(refusal(format!("a=\"\"\r\nb={}\r\n", alternatives(0..33)).as_bytes()), (18, 2));
}

/// Alternatives of two of 16 characters: 256 in all.
fn pairs(count: usize) -> String {
    (0..count).map(|n| format!("a{}%x{:X}.{:X}\r\n", if n == 0 { "=" } else { "=/" }, n / 16, n % 16)).collect()
}

#[test]
fn two_hundred_and_fifty_six_rules() {
    assert_eq!(counts(&pairs(256)), (257, 16));
    assert_eq!(counts(&(pairs(256) + "a=/%x0.0/%xF.F\r\nA=/%x1.2\r\n")), (257, 16));
    for more in ["a=/\"\"\r\n", "a=/a\r\n", "a=/%x0\r\n", "b=\"\"\r\n", "b=a\r\n"] {
        assert_eq!(refusal((pairs(256) + more).as_bytes()), (7, 257), "{more}");
        assert_eq!(counts(&(pairs(255) + more)).0, 257, "{more}");
    }
    // A letter has two rules besides its body's, a tail one.
    assert_eq!(counts(&(pairs(253) + "a=/\"k\"\r\n")), (257, 18));
    assert_eq!(refusal((pairs(254) + "a=/\"k\"\r\n").as_bytes()), (7, 257));
    assert_eq!(counts(&(pairs(254) + "a=/%x0.0.0\r\n")), (257, 16));
    assert_eq!(refusal((pairs(255) + "a=/%x0.0.0\r\n").as_bytes()), (7, 257));
    // However many there are, the place is 257.
    let all = "b=\"\"\r\nb=/%x0 a/%x1 a/%x2 a/%x3 a/a %x0/a %x1/a %x2/a %x3\r\n";
    assert_eq!(refusal((pairs(256) + all).as_bytes()), (7, 257));
}

/// A text of a length: a comment fills it.
fn filled(text: &str, length: usize) -> Vec<u8> {
    let comment = vec![b'-'; length - text.len() - 1];
    let (before, end) = text.as_bytes().split_at(text.len() - 2);
    [before, b";", &comment, end].concat()
}

#[test]
fn the_longest_text() {
    let text = filled("a=%x41\r\n", 16_384);
    assert_eq!(text.len(), 16_384);
    reads_bytes(&text, "S 0\nU 0 32\n", b"A");
    assert_eq!(refusal(&filled("a=%x41\r\n", 16_385)), (2, 16_385));
    // The length comes before all that is in the text, but a short map before it.
    assert_eq!(refusal(&[0; 16_385]), (2, 16_385));
    assert_eq!(refusal(&vec![0; 1 << 20]), (2, 1 << 20));
    assert_eq!(refusal(&[0; 16_384]), (16, 0));
    assert_eq!(refusal_with(&[0; 16_385], 31, 0), (10, 3));
    assert_eq!(refusal_with(&[0; 16_385], 32, 0), (2, 16_385));
}

#[test]
fn the_map_has_thirty_two_bytes() {
    for map in 0..32 {
        assert_eq!(refusal_with(b"a=a\r\n", map, 64), (10, 3));
        assert_eq!(refusal_with(b"", map, 0), (10, 3));
    }
    assert_eq!(refusal_with(b"", 32, 0), (16, 0));
    assert_eq!(refusal_with(b"", 33, 0), (16, 0));
    reads("a=%x41\r\n", "S 0\nU 0 32\n", b"A");
}

#[test]
fn the_room_that_is_needed() {
    let text = b"a=\"f\" a\r\n";
    // S, P 0 1 0, U 1 32 and U 1 33.
    for room in 0..16 {
        assert_eq!(refusal_with(text, 32, room), (13, 4));
    }
    reads("a=\"f\" a\r\n", "S 0\nP 0 1 0\nU 1 32\nU 1 33\n", b"Ff");
    assert_eq!(refusal_with(pairs(256).as_bytes(), 32, COPY_BYTES - 1), (13, 257));
    assert!(read_abnf(pairs(256).as_bytes(), &mut [0; 32], &mut [0; COPY_BYTES]).is_ok());
}

/// The checks in their order: each text has the faults of those behind it, too.
#[test]
fn the_order_of_the_checks() {
    let too_many_rules = pairs(256) + "a=/a\r\n";
    assert_eq!(refusal_with(too_many_rules.as_bytes(), 32, 0), (7, 257));
    let characters = too_many_rules.clone() + &format!("a=/{}\r\n", alternatives(100..140));
    assert_eq!(refusal_with(characters.as_bytes(), 32, 0), (18, 2));
    let variables = characters + &names(40);
    assert_eq!(refusal_with(variables.as_bytes(), 32, 0), (18, 1));
    let at = variables.len() as u64 + 2;
    let name = variables + "c=d\r\n";
    assert_eq!(refusal_with(name.as_bytes(), 32, 0), (17, at));
    let at = name.len() as u64;
    let outside = name + "\r\n";
    assert_eq!(refusal_with(outside.as_bytes(), 32, 0), (16, at));
    let longer = outside.clone() + &"-".repeat(16_385 - outside.len());
    assert_eq!(refusal_with(longer.as_bytes(), 32, 0), (2, 16_385));
    assert_eq!(refusal_with(longer.as_bytes(), 31, 0), (10, 3));
}

/// A radio's commands.
const RADIO: &str = "Command = tune / memory\r\n\
                     tune = \"F\" digits \";\"\r\n\
                     memory = \"m\" digit \"T\" digit digit %x0D.0A\r\n\
                     digits = digit / digit digits\r\n\
                     DIGIT = \"0\" / \"1\"\r\n";

#[test]
fn names_of_symbols() {
    let grammar = abnf_grammar(RADIO.as_bytes()).unwrap();
    let variables = [
        "Command",
        "tune",
        "memory",
        "digits",
        "DIGIT",
        "\"f\"/\"F\"",
        "tune.2",
        "\"m\"/\"M\"",
        "\"t\"/\"T\"",
        "memory.2",
        "memory.3",
        "memory.4",
        "memory.5",
        "memory.6",
    ];
    for (symbol, name) in (0..).zip(variables) {
        assert_eq!(grammar.names().symbol_name(symbol), Some(name));
    }
    assert_eq!(grammar.names().symbol_name(14), None);
    let characters = ["%x0A", "%x0D", "\"0\"", "\"1\"", "\";\"", "\"F\"", "\"M\"", "\"T\"", "\"f\"", "\"m\"", "\"t\""];
    for (symbol, name) in (32..).zip(characters) {
        assert_eq!(grammar.names().symbol_name(symbol), Some(name));
    }
    assert_eq!(grammar.names().symbol_name(43), None);
}

/// Quotes, backslashes and blanks are named as in a text; what is not visible by its number.
#[test]
fn names_of_characters() {
    let grammar = abnf_grammar(b"a=%x20/%x22/%x5C/%x7E/%x00/%x09/%x7F/%x80/%xFF\r\n").unwrap();
    let names: Vec<_> = (32..41).map(|symbol| grammar.names().symbol(symbol).into_owned()).collect();
    assert_eq!(names, ["%x00", "%x09", "\" \"", "\"\\\"\"", "\"\\\\\"", "\"~\"", "%x7F", "%x80", "%xFF"]);
}

/// A tail is named by the rule's name that it belongs to and the place in the body where it begins, from a name's second long body on by that too.
#[test]
fn names_of_tails() {
    let grammar = abnf_grammar(b"b=%x1.2.3.4\r\nA=\"1k1\"\r\nB=/a b a\r\n").unwrap();
    let names: Vec<_> = (0..7).map(|symbol| grammar.names().symbol(symbol).into_owned()).collect();
    assert_eq!(names, ["b", "A", "b.2", "b.3", "\"k\"/\"K\"", "A.2", "b.2.2"]);
}

/// A text has no room for a longer name; its symbol has none then, and no tail of it has.
#[test]
fn names_that_are_too_long() {
    for (length, name, tail) in
        [(64, true, false), (65, false, false), (62, true, true), (63, true, false), (8_000, false, false)]
    {
        let long = "x".repeat(length);
        let grammar = abnf_grammar(format!("a={long}\r\n{long}=%x1.1.1\r\n").as_bytes()).unwrap();
        assert_eq!(grammar.names().symbol_name(1), name.then_some(long.as_str()), "{length}");
        assert_eq!(grammar.names().symbol_name(2), tail.then_some(format!("{long}.2")).as_deref(), "{length}");
    }
}

/// The text of a grammar with its names is read as the same job, with the same names.
#[test]
fn names_are_read_again() {
    for abnf in [RADIO, "S=%x0.22.5C \"fx\" s / \"[\" %x41\r\nname=form\r\nform=\"\"\r\n"] {
        let grammar = abnf_grammar(abnf.as_bytes()).unwrap();
        let printed = print(&grammar.job, grammar.names()).unwrap();
        let again = read(&printed).expect(&printed);
        assert_eq!((&again.bytes, &again.names), (&grammar.job, grammar.names()), "{printed}");
    }
}

/// Forms are spelled by these names and by characters. A letter in both cases that names nothing is three characters.
#[test]
fn forms_by_these_names() {
    let grammar = abnf_grammar(RADIO.as_bytes()).unwrap();
    let names = grammar.names();
    assert_eq!(names.form("tune"), Ok(vec![1]));
    assert_eq!(names.form("\"f\"/\"F\" digits \";\""), Ok(vec![5, 3, 36]));
    assert_eq!(names.form("\"f\"/\"F\"\"1\" %x0D"), Ok(vec![5, 35, 33]));
    assert_eq!(names.form("\"f01;\""), Ok(vec![40, 34, 35, 36]));
    assert_eq!(
        names.form("\"t\" \"/\"").unwrap_err().to_string(),
        "'/' is no symbol: no character is named so, and no range holds it"
    );
    let others = read("name 32 \"x\"\nname 33 \"X\"\nname 34 \"/\"\n").unwrap().names;
    assert_eq!(others.form("\"x\"/\"X\""), Ok(vec![32, 34, 33]));
    assert_eq!(others.form("\"X\"/\"x\""), Ok(vec![33, 34, 32]));
}

#[test]
fn terminals_and_words() {
    let grammar = abnf_grammar(RADIO.as_bytes()).unwrap();
    assert_eq!(grammar.word(b"F10;"), Ok(vec![37, 35, 34, 36]));
    assert_eq!(grammar.word(b""), Ok(vec![]));
    assert_eq!(grammar.terminal(b'\n'), Some(32));
    assert_eq!((grammar.terminal(0), grammar.terminal(b'2')), (None, None));
    for (word, character, position, message) in [
        (&b"F2"[..], b'2', 1, "the character \"2\" at position 1 of the word is not used in the grammar"),
        (b"\0F", 0, 0, "the character %x00 at position 0 of the word is not used in the grammar"),
        (b"11\"\"", b'"', 2, "the character \"\\\"\" at position 2 of the word is not used in the grammar"),
    ] {
        let missing = grammar.word(word).unwrap_err();
        assert_eq!((missing.character, missing.position), (character, position));
        assert_eq!(missing.to_string(), message);
    }
}
