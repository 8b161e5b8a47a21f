//! Text read into a job, its names, and the places of its records.
use super::error::{Problem, Span, TextError};
use super::names::{number, Names};
use super::words::{is_name, words, Word};
use crate::format::{self, Class};
use crate::long::{self, LongRecord, Ordinary};
use crate::{Refusal, BODY_SYMBOLS, LONG_RECORD_BYTES, RECORDS, RECORD_BYTES, STATES, SYMBOLS};
use std::collections::BTreeSet;

/// Where a record stands in its text.
///
/// ```
/// let text = ropeclover::text::read("# rules\nU 0 32\n").unwrap();
/// assert_eq!(text.records[0].line, 2);
/// assert_eq!(text.records[0].words[2].start, 4);
/// ```
#[derive(Clone, Debug, PartialEq, Eq)]
pub struct RecordPlace {
    /// The line, from 1.
    pub line: usize,
    /// The kind and the fields that are written out, in order.
    pub words: Vec<Span>,
}

/// A form that a text asks about.
///
/// ```
/// let text = ropeclover::text::read("name 3 memory\nform memory #35 # a stored channel\n").unwrap();
/// assert_eq!((text.forms[0].line, text.forms[0].text.as_str()), (2, "memory #35"));
/// assert_eq!(text.forms[0].symbols, [3, 35]);
/// ```
#[derive(Clone, Debug, PartialEq, Eq)]
pub struct FormLine {
    /// The line, from 1.
    pub line: usize,
    /// Its words as they are written, without the first.
    pub text: String,
    /// The symbols that they spell.
    pub symbols: Vec<u8>,
}

/// A text that was read.
///
/// ```
/// let text = ropeclover::text::read("name 0 go\nS go\nE go\n").unwrap();
/// assert_eq!(text.bytes, b"S\0\0\0E\0\0\0");
/// assert_eq!(text.names.symbol(0), "go");
/// assert_eq!(text.records.len(), 2);
/// ```
#[derive(Clone, Debug, Default, PartialEq, Eq)]
pub struct Text {
    /// The records that it spells, of four bytes each, so a job; or of twelve, where it is long. [`Text::ordinary`] gives a job in either case.
    pub bytes: Vec<u8>,
    /// Whether it spells a [long job](crate::long), as it has a line of kind L.
    pub is_long: bool,
    /// The names that it gives.
    pub names: Names,
    /// Where each record stands; of more than [`RECORDS`], which every call refuses, the first that is one too many is the last.
    pub records: Vec<RecordPlace>,
    /// The forms that it asks about, in order.
    pub forms: Vec<FormLine>,
}

/// The numbers that the records of a job, of this many bytes each, have in fields of these classes.
fn used(job: &[u8], size: usize, classes: &[Class]) -> BTreeSet<u8> {
    let padded = |bytes: &[u8]| {
        let mut record = [0; LONG_RECORD_BYTES];
        record[..size].copy_from_slice(bytes);
        record
    };
    let records = job.chunks_exact(size).map(padded);
    let numbers = |record: LongRecord| {
        let is_used = move |field| long::class(record[0], field).is_some_and(|class| classes.contains(&class));
        (1..).zip(long::fields(&record)).filter(move |(field, _)| is_used(*field)).map(|(_, byte)| byte)
    };
    records.flat_map(numbers).collect()
}

impl Text {
    /// The ordinary job of the text, and its names. Where the text is long, that is the job that [`binarize`](crate::binarize) writes, and the variables
    /// that this takes are named by what they stand for. Any other text's job is what it spells; it is not checked.
    ///
    /// ```
    /// use ropeclover::{text, Workspace};
    ///
    /// let text = text::read("name 0 memory\nname 1 digit\nS memory\nL memory 32 digit 33 digit\nU digit 34\nI 0\n").unwrap();
    /// let ordinary = text.ordinary().unwrap();
    /// assert!(!Workspace::new().report(&ordinary.job).unwrap().empty);
    /// // memory.3 is the end of memory's body from its third symbol on.
    /// assert_eq!(text::spelling(*b"P\x02\x01\x03", &ordinary.names).join(" "), "P memory.2 digit memory.3");
    /// ```
    ///
    /// # Errors
    /// All refusals of [`binarize`](crate::binarize) but 13, of a long text; their records are those of the text.
    pub fn ordinary(&self) -> Result<Ordinary, Refusal> {
        match self.is_long {
            true => long::ordinary(&self.bytes, &self.names),
            false => Ok(Ordinary { job: self.bytes.clone(), names: self.names.clone(), fresh: Vec::new() }),
        }
    }

    /// The names that no record uses, by itself or by its number: of symbols, then of states.
    ///
    /// ```
    /// let text = ropeclover::text::read("name 0 go\nname 1 old\nstate 0 begin\nS 0\nE go\n").unwrap();
    /// assert_eq!(text.unused_names(), ["old", "begin"]);
    /// ```
    pub fn unused_names(&self) -> Vec<&str> {
        let size = if self.is_long { LONG_RECORD_BYTES } else { RECORD_BYTES };
        let symbols = used(&self.bytes, size, &[Class::Variable, Class::Symbol]);
        let states = used(&self.bytes, size, &[Class::State]);
        let symbols =
            (0..64).filter(|symbol| !symbols.contains(symbol)).filter_map(|symbol| self.names.symbol_name(symbol));
        let states = (0..32).filter(|state| !states.contains(state)).filter_map(|state| self.names.state_name(state));
        symbols.chain(states).collect()
    }
}

/// A line's words with its number.
struct Line<'a> {
    number: usize,
    words: Vec<Word<'a>>,
}

impl Line<'_> {
    fn span(&self, word: &Word<'_>) -> Span {
        Span { line: self.number, start: word.start, end: word.end() }
    }

    /// From the first word to the last.
    fn whole(&self) -> Span {
        let ends = (self.words.first().map_or(0, |word| word.start), self.words.last().map_or(0, Word::end));
        Span { line: self.number, start: ends.0, end: ends.1 }
    }

    fn error(&self, word: &Word<'_>, problem: Problem) -> TextError {
        TextError { span: self.span(word), problem }
    }
}

/// The lines that have words, or the error of a string that does not end. Each is made when it is asked for: of a long text there may be millions.
fn lines(text: &str) -> impl Iterator<Item = Result<Line<'_>, TextError>> {
    // A byte order mark is no part of the first word.
    let numbered = (1..).zip(text.strip_prefix('\u{feff}').unwrap_or(text).lines());
    numbered.filter_map(|(number, line)| match words(line) {
        Ok(words) if words.is_empty() => None,
        Ok(words) => Some(Ok(Line { number, words })),
        Err(start) => {
            let span = Span { line: number, start, end: line.len() };
            Some(Err(TextError { span, problem: Problem::OpenString }))
        }
    })
}

/// The most errors that [`read`] gives: those of the first lines that are malformed.
///
/// ```
/// use ropeclover::text::{read, MOST_ERRORS};
/// assert_eq!(read(&"wrong\n".repeat(MOST_ERRORS + 1)).unwrap_err().len(), MOST_ERRORS);
/// ```
pub const MOST_ERRORS: usize = 1_000;

/// Errors by their lines, at most so many as are given.
#[derive(Default)]
struct Errors(Vec<TextError>);

impl Errors {
    fn is_full(&self) -> bool {
        self.0.len() == MOST_ERRORS
    }

    fn take(&mut self, error: TextError) {
        if !self.is_full() {
            self.0.push(error);
        }
    }

    /// The value that was found; an error is taken.
    fn keep<T>(&mut self, found: Result<T, TextError>) -> Option<T> {
        found.map_err(|error| self.take(error)).ok()
    }

    /// The first of these errors and others.
    fn with(mut self, others: Errors) -> Vec<TextError> {
        self.0.extend(others.0);
        self.0.sort_by_key(|error| error.span.line);
        self.0.truncate(MOST_ERRORS);
        self.0
    }
}

/// The names read so far, each with its place.
#[derive(Default)]
struct Named {
    symbols: Vec<(u8, String, Span)>,
    states: Vec<(u8, String, Span)>,
}

/// Takes the name of a line `name NUMBER NAME` or `state NUMBER NAME` among the names of its sort.
fn take_name(
    line: &Line<'_>,
    limit: u8,
    outside: Problem,
    taken: &mut Vec<(u8, String, Span)>,
) -> Result<(), TextError> {
    let [_, at, name] = line.words[..] else {
        return Err(TextError { span: line.whole(), problem: Problem::NameWords(line.words.len() - 1) });
    };
    let Some(number) = number(at.text).filter(|number| *number < limit) else { return Err(line.error(&at, outside)) };
    if !is_name(name.text) {
        return Err(line.error(&name, Problem::NoName(name.text.into())));
    }
    if let Some((_, _, span)) = taken.iter().find(|(other, _, _)| *other == number) {
        return Err(line.error(&at, Problem::NamedAlready(*span)));
    }
    if let Some((_, _, span)) = taken.iter().find(|(_, other, _)| other == name.text) {
        return Err(line.error(&name, Problem::NameTaken(*span)));
    }
    taken.push((number, name.text.into(), line.whole()));
    Ok(())
}

/// The names that a text gives, whatever else is wrong with it.
///
/// ```
/// assert_eq!(ropeclover::text::names("name 3 memory\nS memry\n").symbol(3), "memory");
/// ```
pub fn names(text: &str) -> Names {
    named(text).0
}

/// The names of all name lines, and what is wrong with such lines.
fn named(text: &str) -> (Names, Errors) {
    let (mut named, mut errors) = (Named::default(), Errors::default());
    for line in lines(text).flatten() {
        let taken = match line.words[0].text {
            "name" => take_name(&line, SYMBOLS as u8, Problem::NoSymbol, &mut named.symbols),
            "state" => take_name(&line, STATES as u8, Problem::NoState, &mut named.states),
            _ => Ok(()),
        };
        errors.keep(taken);
    }
    let mut names = Names::default();
    named.symbols.iter().for_each(|(symbol, name, _)| names.name_symbol(*symbol, name));
    named.states.iter().for_each(|(state, name, _)| names.name_state(*state, name));
    (names, errors)
}

/// The number that a field spells: itself, or what its name stands for in the field's class.
fn field(word: &str, class: Option<Class>, names: &Names) -> Option<u8> {
    number(word).or_else(|| names.find(word, class?))
}

/// The first field that is one too many: it would not be stored, or it is a word where the kind uses no field. A number there is for the library to
/// judge.
fn extra_field<'a>(kind: u8, fields: &'a [Word<'a>]) -> Option<&'a Word<'a>> {
    let (used, stored) = match kind {
        long::KIND => (1 + BODY_SYMBOLS, 1 + BODY_SYMBOLS),
        _ => (format::used_fields(kind).unwrap_or(3), 3),
    };
    let word = || fields.iter().skip(used).find(|word| number(word.text).is_none());
    fields.get(stored).or_else(word)
}

/// An error where a record has fewer fields than its kind uses, or more.
fn check_number(line: &Line<'_>, kind: u8, fields: &[Word<'_>]) -> Result<(), TextError> {
    let least = if kind == long::KIND { 1 } else { format::used_fields(kind).unwrap_or(0) };
    let problem = Problem::FieldNumber { kind, fields: fields.len() };
    match extra_field(kind, fields) {
        Some(extra) if kind == long::KIND => Err(line.error(extra, Problem::BodyTooLong(fields.len() - 1))),
        Some(extra) => Err(line.error(extra, problem)),
        None if fields.len() < least => Err(TextError { span: line.whole(), problem }),
        None => Ok(()),
    }
}

/// The record of a line, as one of a long job.
fn record(line: &Line<'_>, names: &Names) -> Result<LongRecord, TextError> {
    let (word, fields) = (&line.words[0], &line.words[1..]);
    let kind = match word.text.as_bytes() {
        [letter] if letter.is_ascii_alphabetic() => *letter,
        _ => return Err(line.error(word, Problem::NoKind(word.text.into()))),
    };
    check_number(line, kind, fields)?;
    let mut numbers = [0; 1 + BODY_SYMBOLS];
    for (at, word) in fields.iter().enumerate() {
        let class = long::class(kind, at + 1);
        let number = field(word.text, class, names);
        numbers[at] = number.ok_or_else(|| line.error(word, Problem::NoField(word.text.into(), class)))?;
    }
    let [a, b, c, ..] = numbers;
    let rule = long::rule(a, &numbers[1..fields.len().max(1)]);
    Ok(rule.filter(|_| kind == long::KIND).unwrap_or_else(|| long::padded([kind, a, b, c])))
}

/// The form of a form line.
fn form(line: &Line<'_>, names: &Names) -> Result<FormLine, TextError> {
    let words = &line.words[1..];
    if words.is_empty() {
        return Err(TextError { span: line.whole(), problem: Problem::FormWords });
    }
    let unknown = |(word, unknown)| line.error(&word, Problem::NoForm(unknown));
    let symbols = names.read_words(words).map_err(unknown)?;
    let text = words.iter().map(|word| word.text).collect::<Vec<&str>>().join(" ");
    Ok(FormLine { line: line.number, text, symbols })
}

/// Reads a text.
///
/// ```
/// let text = ropeclover::text::read("name 32 \"a\"\nS 0\nU 0 \"a\"\n").unwrap();
/// assert_eq!(text.bytes, b"S\0\0\0U\0\x20\0");
/// ```
///
/// # Errors
/// What in the text is no part of the format, an error a line, by lines; at most [`MOST_ERRORS`].
pub fn read(text: &str) -> Result<Text, Vec<TextError>> {
    let (names, name_errors) = named(text);
    let (mut found, mut errors) = (Text { names, ..Text::default() }, Errors::default());
    let mut records: Vec<LongRecord> = Vec::new();
    for line in lines(text) {
        if errors.is_full() {
            break;
        }
        let Some(line) = errors.keep(line) else { continue };
        match line.words[0].text {
            "name" | "state" => {}
            "form" => found.forms.extend(errors.keep(form(&line, &found.names))),
            _ => {
                let Some(record) = errors.keep(record(&line, &found.names)) else { continue };
                records.push(record);
                if found.records.len() <= RECORDS {
                    let words = line.words.iter().map(|word| line.span(word)).collect();
                    found.records.push(RecordPlace { line: line.number, words });
                }
            }
        }
    }
    let errors = name_errors.with(errors);
    if !errors.is_empty() {
        return Err(errors);
    }
    found.is_long = records.iter().any(|record| record[0] == long::KIND);
    let size = if found.is_long { LONG_RECORD_BYTES } else { RECORD_BYTES };
    found.bytes = records.iter().flat_map(|record| &record[..size]).copied().collect();
    Ok(found)
}

#[cfg(test)]
mod tests {
    use super::{read, MOST_ERRORS};
    use crate::RECORDS;

    /// The errors of names are found in a walk of their own, and the first of all are given.
    #[test]
    fn the_first_errors_are_given() {
        for lines in ["name 64 x\nfoo\n", "foo\nS 0\nstate 32 x\nU 0 \"a\n"] {
            let errors = read(&lines.repeat(MOST_ERRORS)).unwrap_err();
            let malformed = |(_, line): &(usize, &str)| *line != "S 0";
            let expected = (1..).zip(lines.lines().cycle()).filter(malformed).map(|(number, _)| number);
            let found: Vec<usize> = errors.iter().map(|error| error.span.line).collect();
            assert_eq!(found, expected.take(MOST_ERRORS).collect::<Vec<usize>>());
        }
    }

    /// Every record is read, however many there are; of those past the longest job only the first has a place.
    #[test]
    fn places_of_records() {
        for records in [RECORDS - 1, RECORDS, RECORDS + 1, RECORDS + 9] {
            let text = read(&"S 0\n".repeat(records)).unwrap();
            assert_eq!((text.bytes.len(), text.records.len()), (4 * records, records.min(RECORDS + 1)));
            assert_eq!(text.records.last().unwrap().line, text.records.len());
        }
    }
}
