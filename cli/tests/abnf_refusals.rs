//! Refused ABNF texts: the place in the file, the quoted line with a caret, what may stand there, which name is meant, what was counted. The places are
//! those that the request's readings give, worked out by hand.
mod support;

use support::{file, run, RADIO_ABNF};

const NAME: &str = "a line begins with the name of a rule: a letter, then letters, digits and dashes";
const MARK: &str = "here may stand = or =/, with blanks before it";
const ELEMENT: &str = "here may stand an element: a name, a string in quotes, or a value as %x41 or %x41.42";
const BEHIND: &str = "here may stand a slash, a comment, the line end, or a blank and then an element";
const SPACED: &str = "here may stand an element, a slash, a comment or the line end";
const COMMENT: &str = "here may stand a blank, a tab, a visible character or the line end";

/// The last line of a text is refused by 16 at an offset in it: what is said, and what may stand there. Above it is one more line.
fn refuse(line: &str, offset: usize, headline: &str, allowed: &str) {
    let shown = line.split(['\r', '\n']).next().unwrap_or_default();
    for (above, length) in [("b = %x42\n", 9), ("b = %x42\r\n", 10)] {
        let place = length + offset;
        run(&["read"], format!("{above}{line}").as_bytes()).refuses(
            &format!("refused 16 at {place}\n"),
            &[
                &format!("error[refused 16 at {place}]: {headline}\n"),
                &format!("--> <stdin>:2:{}\n", offset + 1),
                &format!("\n2 | {shown}"),
                &format!("\n  | {}^ {allowed}\n", " ".repeat(offset)),
            ],
        );
    }
}

/// As [`refuse`], of something that ABNF has and the part has not.
fn outside(line: &str, offset: usize, what: &str, allowed: &str) {
    refuse(line, offset, &format!("{what} outside the part of ABNF that is read"), allowed);
}

#[test]
fn what_abnf_has_and_the_part_has_not() {
    outside("a = (b)\n", 4, "groups are", ELEMENT);
    outside("a = b (b)\n", 6, "groups are", SPACED);
    outside("a = [b]\n", 4, "options are", ELEMENT);
    outside("a = *b\n", 4, "repetition is", ELEMENT);
    outside("a = b 2b\n", 6, "repetition is", SPACED);
    outside("a = <prose>\n", 4, "prose values are", ELEMENT);
    outside("a = %d65\n", 4, "values in decimal or binary digits are", ELEMENT);
    outside("a = b / %B01\n", 8, "values in decimal or binary digits are", ELEMENT);
    outside("a = %s\"x\"\n", 4, "strings with %s or %i, of RFC 7405, are", ELEMENT);
    outside("a = b %I\"x\"\n", 6, "strings with %s or %i, of RFC 7405, are", SPACED);
    outside("\n", 0, "empty lines are", NAME);
    outside("\r\n", 0, "empty lines are", NAME);
    outside("; a comment\n", 0, "lines with a comment and no rule are", NAME);
    outside(" / b\n", 0, "lines that begin with a blank, or go on from the line before, are", NAME);
    run(&["read"], b"\t\n").refuses("refused 16 at 0\n", &["lines that begin with a blank", "<stdin>:1:1\n", NAME]);
}

#[test]
fn ranges_and_values() {
    for value in ["%x41-5A", "%x41-a", "%x41-42.43"] {
        outside(&format!("a = {value}\n"), 4, "ranges are", ELEMENT);
    }
    for value in ["%x41-", "%x41-g"] {
        outside(&format!("a = {value}\n"), 8, "ranges are", BEHIND);
    }
    outside("a = %x41.42-43\n", 11, "ranges are", BEHIND);
    for value in ["%x100", "%x41b", "%x41.100", "%x100000041"] {
        outside(&format!("a = {value}\n"), 4, "values above FF are", ELEMENT);
    }
    refuse("a = %x41.\n", 8, "a dot has no hexadecimal digit behind it", BEHIND);
    refuse("a = %xg\n", 4, "%x has no hexadecimal digit behind it", ELEMENT);
    refuse("a = %\n", 4, "a percent sign begins a value: %x and hexadecimal digits", ELEMENT);
}

#[test]
fn strings_and_comments() {
    refuse("a = \"x\n", 4, "this string has no closing quote on its line", ELEMENT);
    refuse("a = \"x", 4, "this string has no closing quote on its line", ELEMENT);
    // A control character in a string or a comment, and bytes that are no ASCII: each is named, and the line is quoted as it may be shown.
    run(&["read"], b"a = %x42 ;\x01\n").refuses(
        "refused 16 at 10\n",
        &[
            "a comment has blanks, tabs and visible characters, and this one the byte %x01\n",
            "1 | a = %x42 ;\u{2401}\n  |           ^ ",
            COMMENT,
        ],
    );
    run(&["read"], b"a = \"\tx\"\n").refuses(
        "refused 16 at 4\n",
        &["a string has blanks and visible characters, and this one the byte %x09\n", "<stdin>:1:5\n", ELEMENT],
    );
    run(&["read"], "a = %x42 ; gr\u{fc}n\n".as_bytes()).refuses(
        "refused 16 at 13\n",
        &[
            "a comment has blanks, tabs and visible characters, and this one the byte %xC3\n",
            "<stdin>:1:14\n",
            "; gr\u{fc}n\n",
            COMMENT,
        ],
    );
    run(&["read"], b"a = %x42 \xff\xfe\n")
        .refuses("refused 16 at 9\n", &["the byte %xFF begins no element\n", "<stdin>:1:10\n", SPACED]);
}

#[test]
fn what_is_missing_in_a_line() {
    refuse("a\n", 1, "the line ends behind the name of a rule", MARK);
    refuse("a \n", 2, "the line ends behind the name of a rule", MARK);
    refuse("a : b\n", 2, "':' stands behind the name of a rule", MARK);
    refuse("my_name = b\n", 2, "a name has letters, digits and dashes, and no '_'", MARK);
    refuse("a = my_name\n", 6, "a name has letters, digits and dashes, and no '_'", BEHIND);
    refuse("a =\n", 3, "the line ends where an element is due", ELEMENT);
    refuse("a = b /\n", 7, "the line ends where an element is due", ELEMENT);
    refuse("a= ;c\n", 3, "a comment stands where an element is due", ELEMENT);
    refuse("a = / b\n", 4, "a slash stands where an element is due", ELEMENT);
    refuse("a = b // b\n", 7, "a slash stands where an element is due", ELEMENT);
    refuse("a = b\"x\"\n", 5, "no blank stands between two elements", BEHIND);
    refuse("a = \"x\"b\n", 7, "no blank stands between two elements", BEHIND);
    refuse("a = b = b\n", 6, "a rule has one = or =/", SPACED);
    refuse("a = b, b\n", 5, "',' begins no element", BEHIND);
    refuse("1a = b\n", 0, "a line begins with '1'", NAME);
    refuse("a = b\r", 5, "a CR without LF is no line end", BEHIND);
    refuse("a = b \rb = b\n", 6, "a CR without LF is no line end", SPACED);
}

/// The line end that is missing is due at the end of the file.
#[test]
fn what_is_missing_at_the_end() {
    refuse("a = b", 5, "the last line has no line end", BEHIND);
    refuse("a = b ", 6, "the last line has no line end", SPACED);
    refuse("a = b ; c", 9, "the last line has no line end", COMMENT);
    refuse("a = ", 4, "the text ends where an element is due", ELEMENT);
    refuse("a", 1, "the text ends behind the name of a rule", MARK);
    let path = file("abnf-empty", "empty.abnf", b"");
    run(&["codes", &path], b"").refuses(
        "refused 16 at 0\n",
        &[&format!("error[refused 16 at 0]: {path}: a text has at least one rule, and this one is empty; {NAME}\n")],
    );
}

/// Places are those of the file as it is: with LF the line above counts a byte less. The first line has nine bytes, and the fault is the fourth of the
/// next.
#[test]
fn places_are_those_in_the_file() {
    for (end, place) in [("\n", 13), ("\r\n", 14)] {
        for (line, number) in [("bb=b", 17), ("bb=%d", 16), ("bb=", 16)] {
            let text = format!("aa = %x41{end}{line}{end}");
            let told = format!("refused {number} at {place}\n");
            run(&["codes", "--abnf"], text.as_bytes())
                .refuses(&told, &["<stdin>:2:4\n", &format!("2 | {line}\n  |    ^")]);
        }
    }
}

#[test]
fn a_name_without_a_rule() {
    let text = "command = Frequncy / %x31\nfrequency = command\n";
    run(&["report", "--abnf", "--word", ""], text.as_bytes()).refuses(
        "refused 17 at 10\n",
        &[
            "error[refused 17 at 10]: no rule is named 'Frequncy'\n  --> <stdin>:1:11\n",
            "1 | command = Frequncy / %x31\n  |           ^^^^^^^^ this name begins no line\n",
            "= did you mean 'frequency'?\n",
        ],
    );
    // The first of several in the text, and nothing that is like it.
    let ran = run(&["codes", "--abnf"], b"a = %x31\nb = xyz\nc = zyx\n");
    ran.refuses(
        "refused 17 at 13\n",
        &["no rule is named 'xyz'\n", "2 | b = xyz\n  |     ^^^ this name begins no line\n"],
    );
    assert!(!ran.stderr.contains("did you mean"), "{}", ran.stderr);
    // Core rules are rules like any others.
    run(&["codes", "--abnf"], b"a = %x31 Digit\n").refuses(
        "refused 17 at 9\n",
        &[
            "no rule is named 'Digit'\n",
            "= Digit is a core rule of RFC 5234; a text has none of these unless it says it\n",
        ],
    );
    assert_eq!(run(&["codes", "--abnf"], b"a = %x31 Digit\nDIGIT = %x32\n").status, Some(0));
}

#[test]
fn rules_out_of_order() {
    run(&["codes", "--abnf"], b"a = %x31\nb = %x32\nb =/ a\nA = %x33\nb = %x34\n").refuses(
        "refused 17 at 25\n",
        &[
            "'A' has a rule by = already\n  --> <stdin>:4:1\n",
            "1 | a = %x31\n  | - the first\n",
            "4 | A = %x33\n  | ^ = again; =/ adds to a rule\n",
        ],
    );
    run(&["codes", "--abnf"], b"ab =/ %x31\nAB = %x32\n").refuses(
        "refused 17 at 0\n",
        &[
            "'ab' has no rule by = above\n  --> <stdin>:1:1\n",
            "1 | ab =/ %x31\n  | ^^ =/ adds to a rule that stands above\n2 | AB = %x32\n  | -- its = stands here\n",
        ],
    );
    let ran = run(&["codes", "--abnf"], b"a = %x31\nc =/ %x31\n");
    ran.refuses(
        "refused 17 at 9\n",
        &["'c' has no rule by = above\n", "2 | c =/ %x31\n  | ^ =/ adds to a rule that stands above\n"],
    );
    assert!(!ran.stderr.contains("stands here"));
}

/// One name, 22 letters, and the tails of a body of 22: twenty, so 43 variables.
#[test]
fn too_many_variables_are_counted() {
    run(&["codes", "--abnf"], b"a = %x31\na =/ \"abcdefghijklmnopqrstuv\"\n").refuses(
        "refused 18 at 1\n",
        &[
            "error[refused 18 at 1]: the text takes 43 variables, 1 name, 22 letters and 20 tails; a job has 32\n",
            "<stdin>:2:6\n",
            "2 | a =/ \"abcdefghijklmnopqrstuv\"\n  |      ^^^^^^^^^^^^^^^^^^^^^^^^ the 33rd variable is taken here\n",
            "= each letter in quotes takes one in the whole text, and an alternative of n symbols, n over 2, takes n - 2 for its tails\n",
        ],
    );
    let names: String = (0..33).map(|n| format!("n{n} = %x31\n")).collect();
    run(&["codes", "--abnf"], names.as_bytes()).refuses(
        "refused 18 at 1\n",
        &[
            "takes 33 variables, 33 names, 0 letters and 0 tails; a job has 32\n",
            "33 | n32 = %x31\n   | ^^^ the 33rd variable",
        ],
    );
    let fits: String = (0..32).map(|n| format!("n{n} = %x31\n")).collect();
    assert_eq!(run(&["codes", "--abnf"], fits.as_bytes()).status, Some(0));
    // 31 names and a letter fill them; the tail of the second body is one too many.
    let text: String = (0..31).map(|n| format!("n{n} = \"x\"\n")).collect();
    assert_eq!(run(&["codes", "--abnf"], text.as_bytes()).status, Some(0));
    run(&["codes", "--abnf"], format!("{text}n30 =/ n0 n1 / n0 n1 n2\n").as_bytes()).refuses(
        "refused 18 at 1\n",
        &[
            "takes 33 variables, 31 names, 1 letter and 1 tail; a job has 32\n",
            "32 | n30 =/ n0 n1 / n0 n1 n2\n   |                ^^^^^^^^ the 33rd variable",
        ],
    );
}

/// Seventeen letters in two cases; as values, 33 of them.
#[test]
fn too_many_characters_are_counted() {
    let letters: Vec<String> = ('a'..='q').map(|letter| format!("\"{letter}\"")).collect();
    let note = "= a letter in quotes counts in both cases; as a value, as %x46, it counts once\n";
    run(&["codes", "--abnf"], format!("a = {}\n", letters.join(" / ")).as_bytes()).refuses(
        "refused 18 at 2\n",
        &[
            "the text uses 34 characters; a job has 32 terminals\n",
            "<stdin>:1:101\n",
            "^^^ the 33rd character stands here\n",
            note,
        ],
    );
    let values =
        |most: u8| (0..most).map(|n| format!("a {} %x{n:02X}\n", if n > 0 { "=/" } else { "=" })).collect::<String>();
    assert_eq!(run(&["codes", "--abnf"], values(32).as_bytes()).status, Some(0));
    run(&["codes", "--abnf"], values(33).as_bytes()).refuses(
        "refused 18 at 2\n",
        &[
            "the text uses 33 characters; a job has 32 terminals\n",
            "33 | a =/ %x20\n   |      ^^^^ the 33rd character stands here\n",
            note,
        ],
    );
}

/// Pairs of sixteen names: 256 rules for the first, and each other has one. Equal alternatives count once.
#[test]
fn too_many_rules_are_counted() {
    let pairs: Vec<String> = (0..256).map(|n| format!("n{} n{}", n / 16, n % 16)).collect();
    let others: String = (1..16).map(|n| format!("n{n} = \"\"\n")).collect();
    let text = format!("n0 = {}\n{others}", pairs.join("/"));
    run(&["codes", "--abnf"], text.as_bytes()).refuses(
        "refused 7 at 257\n",
        &[
            "error[refused 7 at 257]: the text takes 271 rules; a job has at most 256\n",
            "2 | n1 = \"\"\n  |      ^^ the 257th rule is taken here\n",
            "= each alternative takes one and one more for each of its tails, and each letter in quotes takes two; equal ones count once\n",
        ],
    );
    let fits = format!("n0 = {}/n0 n0/n0 n0\n{others}", pairs[..241].join("/"));
    assert_eq!(run(&["read"], fits.as_bytes()).bytes.len(), 4 * 257);
}

/// A file of more bytes is refused by as many as are read; one that has them with CRLF alone, by their number.
#[test]
fn too_long_a_text() {
    let line = format!("a = %x31;{}\n", "c".repeat(90));
    assert_eq!(line.len(), 100);
    let text = |end: &str, length: usize| {
        let lines = line.replace("a =", "a=/").replace('\n', end).repeat(161);
        let first = format!("{}{end}", line.trim_end());
        let rest = length - first.len() - lines.len();
        format!("{first}{lines}a=/ %x31;{}{end}", "c".repeat(rest - 9 - end.len()))
    };
    for (end, length, line) in [
        ("\r\n", 16_384, ""),
        ("\r\n", 16_385, "refused 2 at 16385\n"),
        ("\r\n", 17_000, "refused 2 at 16385\n"),
        ("\n", 16_384 - 163, ""),
        ("\n", 16_385 - 163, "refused 2 at 16385\n"),
        ("\n", 16_384, "refused 2 at 16547\n"),
        ("\n", 16_385, "refused 2 at 16385\n"),
    ] {
        let text = text(end, length);
        assert_eq!((text.len(), text.lines().count()), (length, 163));
        let ran = run(&["codes", "--abnf"], text.as_bytes());
        if line.is_empty() {
            assert_eq!(ran.status, Some(0), "{}", ran.stderr);
            continue;
        }
        let message = match length > 16_384 {
            true => "<stdin>: the text has more than 16384 bytes\n".into(),
            false => format!(
                "<stdin>: with CRLF at each line end the text has {} bytes; at most 16384 are taken\n",
                length + 163
            ),
        };
        ran.refuses(line, &[&message]);
    }
}

#[test]
fn refusals_as_json() {
    let path = file("abnf-json", "bad.abnf", b"a = %x31\r\nb = digt\r\ndigit = a\r\n");
    run(&["codes", "--format", "json", &path], b"").refuses(
        &format!(
            "{{\"refused\":{{\"column\":5,\"file\":\"{path}\",\"line\":2,\"message\":\"no rule is named 'digt'; this name begins no line\",\
            \"number\":17,\"place\":14,\"suggestion\":\"digit\"}}}}\n"
        ),
        &["did you mean 'digit'?"],
    );
    let path = file("abnf-json", "outside.abnf", b"a = [a]\n");
    run(&["explain", "--format", "json", "--word", "x", &path], b"").refuses(
        &format!(
            "{{\"refused\":{{\"column\":5,\"file\":\"{path}\",\"line\":1,\"message\":\"options are outside the part of ABNF that is read; {ELEMENT}\",\
            \"number\":16,\"place\":4,\"suggestion\":null}}}}\n"
        ),
        &["^ here may stand an element"],
    );
    let long = run(&["report", "--abnf", "--format", "json", "/dev/zero"], b"").stdout;
    assert!(
        long.contains("\"column\":null") && long.contains("\"line\":null") && long.contains("\"place\":16385"),
        "{long}"
    );
    let form = run(&["explain", "--abnf", "--format", "json", "--word", "x", "-", "#64"], b"a = %x31\n").stdout;
    assert!(form.contains("\"line\":null") && form.contains("\"number\":11") && !form.contains("column"), "{form}");
}

/// What could disturb a terminal, and what is long, is not repeated.
#[test]
fn hostile_texts() {
    for text in [&b"\x1b[2J = a\n"[..], b"a = \x1b]0;x\x07\n", b"a = b ; \x1b[31m\n", b"a = \x00\n"] {
        let ran = run(&["read"], text);
        assert_eq!(ran.status, Some(1));
        assert!(
            !ran.stderr.contains('\x1b') && !ran.stderr.contains('\x07') && !ran.stderr.contains('\0'),
            "{:?}",
            ran.stderr
        );
    }
    let long = "x".repeat(16_000);
    for text in [
        format!("a = {long}\n"),
        format!("{long}\n"),
        format!("a = ({long})\n"),
        format!("a = {}\n", "b/".repeat(8_000)),
    ] {
        let ran = run(&["read"], text.as_bytes());
        assert_eq!(ran.status, Some(1));
        assert!(ran.stderr.len() < 2_000, "{}", ran.stderr.len());
    }
}

/// Refusals of several files stand under their names, and do not keep the others from being answered.
#[test]
fn several_files() {
    let (good, bad) = (file("abnf-good", "good.abnf", RADIO_ABNF), file("abnf-bad", "bad.abnf", b"a = b\n"));
    let ran = run(&["codes", &bad, &good], b"");
    assert_eq!(ran.status, Some(1));
    assert!(ran.stdout.starts_with(&format!("{bad}:\nrefused 17 at 4\n{good}:\nuseful: 31\n")), "{}", ran.stdout);
    let ran = run(&["nightly", "--word", "F1;", &bad, &good], b"");
    assert!(ran.stdout.starts_with(&format!("{bad}: refused 17 at 4\n{good}: word 'F1;': alike: ")), "{}", ran.stdout);
    ran.says(&["no rule is named 'b'", "bad.abnf:1:5\n"]);
}
