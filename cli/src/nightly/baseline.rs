//! What was last seen of each file, in a text that people can read and keep under version control.
//!
//! ```text
//! ropeclover baseline 1
//!
//! file radio.txt
//! states = 6
//! code memory = 1
//! form memory = accepted yes, records 11
//! ```
//!
//! Of ABNF text there is a line for each word, and forms go with words:
//!
//! ```text
//! word 'M5T88;' = start yes, states 7, examined 24, joins 7
//! word 'M5T88;' form tone = accepted no, records 0
//! ```
use super::twice::{Checked, Explained};
use super::Job;
use crate::failure::Failure;
use crate::output::yes_no;
use crate::print::listing;
use crate::word::Word;
use ropeclover::text::Names;
use ropeclover::Report;
use std::collections::{BTreeMap, BTreeSet};
use std::fs::File;
use std::io::{self, Read};
use std::path::{Path, PathBuf};

const TITLE: &str = "ropeclover baseline 1";

/// The longest baseline in bytes: room for over a thousand files with every symbol named at length, and many forms.
const BASELINE_BYTES: usize = 1 << 24;

/// What was seen of a file: labels and values, in order.
type Seen = Vec<(String, String)>;

pub struct Baseline {
    path: PathBuf,
    update: bool,
    files: BTreeMap<String, Seen>,
    changed: bool,
}

fn failed(path: &Path) -> impl FnOnce(io::Error) -> Failure + '_ {
    move |error| Failure::File { name: crate::input::name(Some(path)), error }
}

fn invalid(path: &Path, message: String) -> Failure {
    failed(path)(io::Error::new(io::ErrorKind::InvalidData, message))
}

fn malformed(path: &Path, line: usize) -> Failure {
    invalid(path, format!("line {line} is no part of a baseline"))
}

/// An error where a baseline is longer than is read.
fn check_length(path: &Path, length: usize) -> Result<(), Failure> {
    if length <= BASELINE_BYTES {
        return Ok(());
    }
    Err(invalid(path, format!("a baseline has at most {BASELINE_BYTES} bytes")))
}

/// The text of a baseline, of which no more is read than tells that it is too long; a file that does not exist says nothing yet.
fn text(path: &Path) -> Result<String, Failure> {
    let mut bytes = Vec::new();
    let most = BASELINE_BYTES as u64 + 1;
    match File::open(path).and_then(|file| file.take(most).read_to_end(&mut bytes)) {
        Ok(_) => {}
        Err(error) if error.kind() == io::ErrorKind::NotFound => return Ok(format!("{TITLE}\n")),
        Err(error) => return Err(failed(path)(error)),
    }
    check_length(path, bytes.len())?;
    String::from_utf8(bytes).map_err(|_| invalid(path, "a baseline is UTF-8 text".into()))
}

/// What is seen of the automaton, which is a file's own.
fn seen_of_automaton(checked: &Checked) -> Seen {
    let report = checked.report;
    vec![
        ("states".into(), report.states.to_string()),
        ("examined".into(), report.examined.to_string()),
        ("joins".into(), report.joins.to_string()),
        ("start".into(), yes_no(report.start).into()),
    ]
}

/// What is seen of the automaton that reads a word.
fn seen_of_word(word: &Word, checked: &Checked) -> (String, String) {
    let Report { states, examined, joins, start, .. } = checked.report;
    (format!("word '{word}'"), format!("start {}, states {states}, examined {examined}, joins {joins}", yes_no(start)))
}

/// What is seen of the grammar.
fn seen_of_grammar(checked: &Checked, names: &Names) -> Seen {
    let mut seen = vec![
        ("empty".into(), yes_no(checked.report.empty).into()),
        ("growing".into(), yes_no(checked.report.growing).into()),
    ];
    for (symbol, code) in checked.codes.iter().enumerate().filter(|(_, code)| **code != 0) {
        seen.push((format!("code {}", names.symbol(symbol as u8)), code.to_string()));
    }
    seen
}

fn seen_of_form(form: &Explained, names: &Names) -> (String, String) {
    let value = format!("accepted {}, records {}", yes_no(form.accepted), form.records);
    (format!("form {}", listing::form(&form.form, names)), value)
}

/// What is seen of a file now: of the grammar once, and of ABNF text something for each word.
pub fn seen(jobs: &[Job]) -> Seen {
    let mut seen = Seen::new();
    for (at, Job { input, checked, .. }) in jobs.iter().enumerate() {
        let word = input.word.as_ref().map(|asked| &asked.word);
        if word.is_none() {
            seen.extend(seen_of_automaton(checked));
        }
        if at == 0 {
            seen.extend(seen_of_grammar(checked, &input.names));
        }
        seen.extend(word.map(|word| seen_of_word(word, checked)));
        let forms = checked.forms.iter().map(|form| seen_of_form(form, &input.names));
        seen.extend(forms.map(|(label, value)| match word {
            Some(word) => (format!("word '{word}' {label}"), value),
            None => (label, value),
        }));
    }
    seen
}

fn value<'a>(seen: &'a Seen, label: &str) -> Option<&'a str> {
    seen.iter().find(|(other, _)| other == label).map(|(_, value)| value.as_str())
}

/// What weighs most is told first: the report's three answers, then codes by name, words, forms, and counts.
fn weight(label: &str) -> usize {
    let kinds = ["start", "empty", "growing", "code ", "word ", "form "];
    kinds.iter().position(|kind| label.starts_with(kind)).unwrap_or(kinds.len())
}

/// What differs, the weightiest first. A word or a form that only one side has is no difference: others were asked for.
fn differences(last: &Seen, now: &Seen) -> Vec<String> {
    let values = |seen: &Seen| seen.iter().cloned().collect::<BTreeMap<String, String>>();
    let (last, now) = (values(last), values(now));
    let labels: BTreeSet<(usize, &String)> =
        last.keys().chain(now.keys()).map(|label| (weight(label), label)).collect();
    let difference = |(_, label): (usize, &String)| match (last.get(label), now.get(label)) {
        (before, after) if before == after => None,
        (None, _) | (_, None) if ["word ", "form "].iter().any(|kind| label.starts_with(kind)) => None,
        (before, after) => {
            let [before, after] = [before, after].map(|value| value.map_or("not there", String::as_str));
            Some(format!("{label} was {before}, is {after}"))
        }
    };
    labels.into_iter().filter_map(difference).collect()
}

impl Baseline {
    /// Reads a baseline.
    pub fn read(path: &Path, update: bool) -> Result<Self, Failure> {
        let text = text(path)?;
        let mut files: BTreeMap<String, Seen> = BTreeMap::new();
        let mut lines = text.lines().enumerate();
        lines.next().filter(|(_, title)| *title == TITLE).ok_or_else(|| malformed(path, 1))?;
        let mut file = None;
        for (at, line) in lines.filter(|(_, line)| !line.is_empty()) {
            if let Some(name) = line.strip_prefix("file ") {
                file = Some(files.entry(name.into()).or_default());
                continue;
            }
            let (label, value) = line.rsplit_once(" = ").ok_or_else(|| malformed(path, at + 1))?;
            file.as_mut().ok_or_else(|| malformed(path, at + 1))?.push((label.into(), value.into()));
        }
        Ok(Baseline { path: path.into(), update, files, changed: false })
    }

    /// Compares what is seen of a file with what was last seen, and takes what is new. What differs is kept, but for an update.
    pub fn compare(&mut self, name: &str, now: Seen) -> Vec<String> {
        let Some(last) = self.files.get_mut(name).filter(|_| !self.update) else {
            self.changed |= self.files.insert(name.into(), now.clone()) != Some(now);
            return vec![];
        };
        let differences = differences(last, &now);
        if differences.is_empty() {
            let new: Seen = now.into_iter().filter(|(label, _)| value(last, label).is_none()).collect();
            self.changed |= !new.is_empty();
            last.extend(new);
        }
        differences
    }

    /// What to say of each file that it has and that is not among these.
    pub fn unchecked(&self, names: &[String]) -> Vec<String> {
        let missing = self.files.keys().filter(|name| !names.contains(name));
        let path = crate::input::name(Some(&self.path));
        missing.map(|name| format!("{path}: {name} was seen last time, and is not checked now")).collect()
    }

    /// Writes the baseline if something is new. The file is replaced at once, so that no half of it is ever read.
    pub fn write(&self) -> Result<(), Failure> {
        if !self.changed {
            return Ok(());
        }
        let mut text = format!("{TITLE}\n");
        for (name, seen) in &self.files {
            text.push_str(&format!("\nfile {name}\n"));
            seen.iter().for_each(|(label, value)| text.push_str(&format!("{label} = {value}\n")));
        }
        check_length(&self.path, text.len())?;
        let mut new = self.path.clone().into_os_string();
        new.push(".new");
        std::fs::write(&new, text).and_then(|()| std::fs::rename(&new, &self.path)).map_err(failed(&self.path))
    }
}
