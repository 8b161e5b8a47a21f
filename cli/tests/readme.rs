//! The README's examples print what it says.
mod support;

use std::path::{Path, PathBuf};
use std::process::Command;
use support::{file, folder, run, Ran, COMMAND, MEMORY_TEXT, RADIO_ABNF, RADIO_TEXT};

const README: &str = include_str!("../../README.md");

/// The example with shared tails.
const TS2000_TEXT: &str = include_str!("../../examples/ts2000.txt");

/// A folder with the examples, as a checkout has them and as they are installed beside the page.
fn with_examples(test: &str) -> PathBuf {
    let folder = folder(test);
    std::fs::create_dir(folder.join("examples")).unwrap();
    for (name, text) in [
        ("radio.txt", RADIO_TEXT.as_bytes()),
        ("memory.txt", MEMORY_TEXT.as_bytes()),
        ("ts2000.txt", TS2000_TEXT.as_bytes()),
        ("radio.abnf", RADIO_ABNF),
    ] {
        std::fs::write(folder.join("examples").join(name), text).unwrap();
    }
    folder
}

/// What a line does that is typed in a folder, with the command in PATH.
fn typed(line: &str, folder: &Path) -> Ran {
    let path = format!("{}:{}", Path::new(COMMAND).parent().unwrap().display(), std::env::var("PATH").unwrap());
    Ran::of(Command::new("bash").args(["-c", line]).env("PATH", path).current_dir(folder).output().unwrap())
}

/// Each line that shows the command works as it is typed.
#[test]
fn the_lines_as_typed() {
    let folder = with_examples("readme-lines");
    let lines: Vec<&str> = README.lines().filter_map(|line| line.strip_prefix("    ")).collect();
    let lines = lines.into_iter().filter(|line| line.starts_with("ropeclover ") && !line.starts_with("ropeclover: "));
    let ran: Vec<(&str, Ran)> = lines.map(|line| (line, typed(line, &folder))).collect();
    ran.iter().for_each(|(line, ran)| assert_eq!(ran.status, Some(0), "{line}: {}", ran.stderr));
    // The three that show the levels come first.
    let words: Vec<&str> = ran.iter().map(|(line, _)| line.split(' ').nth(1).unwrap()).collect();
    assert_eq!(words[..3], ["report", "explain", "nightly"]);
    assert!(words.len() >= 5, "{words:?}");
}

/// What it does for each level comes before all else.
#[test]
fn the_order() {
    let place = |part: &str| README.find(part).unwrap_or_else(|| panic!("{part}"));
    let parts = ["**Counter**", "**Desk**", "**Line**", "## Install", "## Reading the answers", "## What is proved"];
    assert!(parts.windows(2).all(|pair| place(pair[0]) < place(pair[1])));
    assert!(README[..place("**Counter**")].matches("\n## ").count() == 1);
}

/// The text as the README shows it, indented by four blanks.
fn indented(text: &str) -> String {
    text.lines().map(|line| if line.is_empty() { "\n".into() } else { format!("    {line}\n") }).collect()
}

#[test]
fn the_report_and_the_useless_symbols() {
    assert!(README.contains(&indented(&run(&["report"], RADIO_TEXT.as_bytes()).stdout)));
    let codes = run(&["codes"], RADIO_TEXT.as_bytes()).stdout;
    let useless = codes.find("derives no string").unwrap();
    assert!(README.contains(&indented(&codes[useless..])));
    assert!(README.contains(&indented(codes.lines().next().unwrap())));
}

#[test]
fn the_tree_of_a_memory_command() {
    let tree = run(&["explain", "--tree", "-", "memory"], RADIO_TEXT.as_bytes()).stdout;
    let first: String = tree.lines().take(7).map(|line| format!("{line}\n")).collect();
    assert!(README.contains(&indented(&first)));
}

/// The turns of the whole tree, by hand. The recorded command is a chain, and a step takes what is pending from the lowest state, by the lowest symbol.
/// So the steps 1 and 2 take "M" from begin and the memory letter that it adds, 3 to 5 the first "0-9", its digit and its digits, 6 and 7 "T" and its
/// letter, 8 to 10 the second "0-9", its digit and its digits, 11 the third "0-9", and 12 its digit, which follows the digit before it: that adds
/// two-digits. From here on each step takes what the one before added: 13 adds the tone, 14 the setting, 15 the memory command.
#[test]
fn the_turns_of_a_memory_command() {
    let tree = run(&["explain", "--tree", "--turns", "-", "memory"], RADIO_TEXT.as_bytes()).stdout;
    let turns: Vec<&str> = tree.lines().skip(3).map(|line| line.rsplit(' ').next().unwrap()).collect();
    // memory: memory-letter: "M"; stored-setting: digit: "0-9"; tone: tone-letter: "T"; two-digits: digit: "0-9"; digit: "0-9"
    assert_eq!(turns, ["15", "1", "0", "14", "3", "0", "13", "6", "0", "12", "8", "0", "11", "0"]);
    let first: String = tree.lines().skip(3).take(3).map(|line| format!("{line}\n")).collect();
    assert!(README.contains(&indented(&first)));
}

#[test]
fn the_rules_that_a_long_one_becomes() {
    let text = run(&["binarize", "--text"], MEMORY_TEXT.as_bytes()).stdout;
    let rules = text.find("P memory ").unwrap()..text.find("U digit").unwrap();
    assert!(README.contains(&indented(&text[rules])));
    let line = MEMORY_TEXT.lines().find(|line| line.starts_with("L ")).unwrap();
    assert!(README.contains(&indented(line.split(" #").next().unwrap().trim_end())));
}

#[test]
fn what_a_clean_copy_leaves_out() {
    let ran = run(&["clean", "--text"], RADIO_TEXT.as_bytes());
    assert!(
        README.contains(&indented(&ran.stderr)) && README.contains("    ropeclover clean --text examples/radio.txt\n")
    );
    assert_eq!(run(&["codes"], ran.stdout.as_bytes()).stdout.lines().next(), Some("useful: 15"));
}

/// The nightly line as it is typed, twice, where the examples are. By hand: "M" digit "T88" leads over five given transitions, of which digit stands on
/// one, so six records; M, a digit and a tone command have (0 34 1), (1 35 2), the letter's, and the tone's eight from state 2 on; "FA" and eleven digits
/// with their end have the thirteen given ones, eleven digits and eleven tails.
#[test]
fn the_nightly_line() {
    let line = README.lines().find(|line| line.starts_with("    ropeclover nightly ")).unwrap();
    let folder = with_examples("readme-nightly");
    let expected = "examples/memory.txt: alike: states 6, examined 12, joins 4, start yes, empty no, growing no, useless symbols 0\n\
        examples/memory.txt: form \"M\" digit \"T\" \"0-9\" \"0-9\": accepted yes, records 6\n\
        examples/radio.txt: alike: states 6, examined 20, joins 5, start yes, empty no, growing yes, useless symbols 2\n\
        examples/radio.txt: form memory-letter \"0-9\" tone: accepted yes, records 11\n\
        examples/ts2000.txt: alike: states 14, examined 37, joins 12, start yes, empty no, growing no, useless symbols 0\n\
        examples/ts2000.txt: form \"FA\" d11-end: accepted yes, records 35\n";
    for _ in 0..2 {
        typed(line, &folder).prints(expected);
    }
    assert!(README.contains(&indented(expected)));
    assert!(folder.join("last.seen").exists());
}

/// The page shows the example as it is, its rules as they are written, and the words that answers have.
#[test]
fn abnf_text() {
    let folder = with_examples("readme-abnf");
    let example = String::from_utf8_lossy(RADIO_ABNF).replace("\r\n", "\n");
    assert!(README.contains(&format!("This is `examples/radio.abnf`:\n\n{}\n", indented(&example))));
    let text = typed("ropeclover read --text examples/radio.abnf", &folder).stdout;
    let rules = ["P tone ", "U \"t\"/\"T\" \"T\"", "U \"t\"/\"T\" \"t\"", "P tone.2 "];
    let lines: Vec<&str> = text.lines().filter(|line| rules.iter().any(|rule| line.starts_with(rule))).collect();
    assert!(lines.len() == 4 && README.contains(&indented(&lines.join("\n"))), "{lines:?}");
    let missing = typed("ropeclover report --word M5X examples/radio.abnf", &folder);
    assert!(README.contains(&indented(&missing.stderr)) && missing.stdout.contains("start no\n"));
    // What stands in a sentence, in place of a line of its own.
    for line in ["report --word 'M5T88;' examples/radio.abnf", "explain --tree --word 'M5T88;' examples/radio.abnf"] {
        assert!(README.contains(&format!("`ropeclover {line}`")));
        assert_eq!(typed(&format!("ropeclover {line}"), &folder).status, Some(0));
    }
}

/// The words of the nightly check, by hand. M5T88; is explained where words are tested. Of f14 and CR, four transitions are given; f's, two digits and
/// three strings of digits, a frequency and a setting of one digit and of two, tone's tail, the end, the command: 17. Meetings: digits once, frequency
/// twice, tone's tail and the command once each. Useless are old-scan, its letter's variable, S and s.
#[test]
fn the_words_of_the_nightly_check() {
    let line = README.lines().find(|line| line.starts_with("    ropeclover nightly --word ")).unwrap();
    let expected =
        "word 'M5T88;': alike: states 7, examined 24, joins 7, start yes, empty no, growing yes, useless symbols 4\n\
        word 'f14%x0D': alike: states 5, examined 17, joins 5, start yes, empty no, growing yes, useless symbols 4\n";
    typed(line, &with_examples("readme-words")).prints(expected);
    assert!(README.contains(&indented(expected)));
}

/// A rule of the example with a repetition: its line is the sixth, and the number its tenth character.
#[test]
fn the_refusal_of_abnf_text() {
    let text = String::from_utf8_lossy(RADIO_ABNF).replace("digits = digit / digit digits", "digits = 1*digit");
    let path = file("readme-refusal", "radio.abnf", text.as_bytes());
    let ran = run(&["codes", &path], b"");
    assert_eq!(ran.stdout, format!("refused 16 at {}\n", text.find("1*digit").unwrap()));
    let message = ran.stderr.replace(&path, "radio.abnf");
    assert!(README.contains(&indented(message.trim_end())), "{message}");
}

/// The variables of a text that are useful.
fn useful_variables(text: &str) -> usize {
    let codes = run(&["codes", "--numbers"], text.as_bytes()).stdout;
    codes.lines().take(32).filter(|line| line.ends_with(" 1")).count()
}

/// The words and the numbers of digits of the commands that set something.
fn settings() -> Vec<(&'static str, usize)> {
    let rules = TS2000_TEXT.lines().filter_map(|line| line.strip_prefix("P setting "));
    let setting = |rule: &'static str| {
        let (word, tail) = rule.split_once(' ').unwrap();
        (word, tail.strip_prefix('d').unwrap().strip_suffix("-end").unwrap().parse().unwrap())
    };
    rules.map(setting).collect()
}

#[test]
fn shared_tails_by_hand() {
    let settings = settings();
    let words: std::collections::BTreeSet<&str> = settings.iter().map(|(word, _)| *word).collect();
    assert_eq!((settings.len(), words.len(), useful_variables(TS2000_TEXT)), (28, 28, 15));
    assert_eq!(useful(TS2000_TEXT), format!("useful: {}", 15 + 28 + 2));
    // As a long rule, a word, n digits and the end have n + 2 symbols, so n tails.
    let tails: usize = settings.iter().map(|(_, digits)| digits).sum();
    let too_long = settings.iter().filter(|(_, digits)| digits + 2 > 8).count();
    assert_eq!((tails, too_long), (107, 4));
    let words = README.split_whitespace().collect::<Vec<&str>>().join(" ");
    for part in [
        "`examples/ts2000.txt` has 28 commands",
        "the 28 commands take 15 variables: eleven tails, `command`, `setting`, `reading` and `digit`",
        "they would take 107 for their tails alone, and four have bodies of more than eight symbols",
    ] {
        assert!(words.contains(part), "{part}");
    }
    for rule in ["P d1-end digit \";\"", "P d2-end digit d1-end", "P d3-end digit d2-end", "P setting \"FA\" d11-end"] {
        assert!(README.contains(&format!("    {rule}\n")) && TS2000_TEXT.contains(&format!("{rule}\n")), "{rule}");
    }
}

/// The same commands as long rules, as far as they have at most eight symbols: each takes tails of its own, and they do not fit.
#[test]
fn tails_of_long_rules_are_not_shared() {
    let text = |commands: &[(&str, usize)]| {
        let names: String = (32..).zip(commands).map(|(number, (word, _))| format!("name {number} {word}\n")).collect();
        let rule = |(word, digits): &(&str, usize)| format!("L 0 {word}{} 61\n", " 60".repeat(*digits));
        format!("{names}S 0\nI 0\n{}", commands.iter().map(rule).collect::<String>())
    };
    let short: Vec<(&str, usize)> = settings().into_iter().filter(|(_, digits)| digits + 2 <= 8).collect();
    let fits = |count: usize| run(&["codes"], text(&short[..count]).as_bytes()).status == Some(0);
    let taken = |count: usize| short[..count].iter().map(|(_, digits)| digits).sum::<usize>();
    // The start symbol is one of the 32 variables.
    let most = (0..=short.len()).rev().find(|count| taken(*count) <= 31).unwrap();
    assert!(most < short.len() && fits(most) && !fits(most + 1));
    assert_eq!(useful_variables(&text(&short[..most])), 1 + taken(most));
}

/// The first line of the codes of a text.
fn useful(text: &str) -> String {
    run(&["codes"], text.as_bytes()).stdout.lines().next().unwrap().into()
}

/// The example has four terminals. With its command letters in the pairs themselves it has three variables fewer.
#[test]
fn the_variables_of_the_commands() {
    assert_eq!(useful(RADIO_TEXT), format!("useful: {}", 11 + 4));
    let mut text = String::from(RADIO_TEXT);
    for (name, letter) in [("frequency-letter", "\"F\""), ("tone-letter", "\"T\""), ("memory-letter", "\"M\"")] {
        text = text.replace(&format!("U {name} {letter}\n"), "");
        text = text.replace(&format!(" {name} "), &format!(" {letter} "));
    }
    assert!(text.contains("P tone \"T\" two-digits\n") && README.contains("`P tone \"T\" two-digits`"));
    assert_eq!(useful(&text), format!("useful: {}", 8 + 4));
    assert_eq!(run(&["report"], text.as_bytes()).stdout.lines().nth(3), Some("start yes"));
}

/// Seven times the example's three commands with letters of their own: all variables are useful, and 21 letters and the digit.
#[test]
fn about_twenty_commands_fit() {
    // 0 is command, 1 digits, 2 digit and 3 two-digits; each three commands have four variables more.
    let mut text = String::from("S 0\nU 1 2\nP 1 2 1\nP 3 2 2\nU 2 63\n");
    for group in 0..7 {
        let [frequency, tone, memory, setting] = [4, 5, 6, 7].map(|variable| variable + 4 * group);
        let [f, t, m] = [32, 33, 34].map(|letter| letter + 3 * group);
        text += &format!("U 0 {frequency}\nU 0 {tone}\nU 0 {memory}\nP {frequency} {f} 1\nP {tone} {t} 3\n");
        text += &format!("P {memory} {m} {setting}\nP {setting} 2 {tone}\n");
    }
    assert_eq!(useful(&text), format!("useful: {}", 32 + 21 + 1));
    assert!(README.contains("So about twenty\nsuch commands fit, more where they share their tails"));
}

/// Every file that the README names in this repository is there, but for what a build makes.
#[test]
fn what_it_names_is_there() {
    let root = std::path::Path::new(env!("CARGO_MANIFEST_DIR")).join("..");
    let folders = ["docs/", "examples/", "include/", "rust/", "cli/", ".ci/", "CHANGELOG.md"];
    let named = |word: &&str| !word.contains('*') && folders.iter().any(|folder| word.starts_with(folder));
    let words =
        README.split(|c: char| c.is_whitespace() || "`(),;:".contains(c)).map(|word| word.trim_end_matches('.'));
    let words: Vec<&str> = words.filter(named).collect();
    assert!(words.len() > 8, "{words:?}");
    words.iter().for_each(|word| assert!(root.join(word).exists(), "{word}"));
}

#[test]
fn the_refusal() {
    let path = file("readme", "radio.txt", RADIO_TEXT.replace("T 3 \"0-9\" 4\n", "T 3 64 4\n").as_bytes());
    let ran = run(&["report", &path], b"");
    let message = ran.stderr.replace(&path, "radio.txt");
    assert!(README.contains(&indented(&format!("{}\n{}", ran.stdout, message.trim_end()))), "{message}");
}
