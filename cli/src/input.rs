//! Input: a job, or a text that is read into one. A long job is written as an ordinary one.
use crate::abnf::Abnf;
use crate::args::Format;
use crate::failure::{complain, Failure};
use crate::form;
use crate::quote::{self, Mark, Page};
use crate::word::{AskedWord, Word};
use ropeclover::format::Class;
use ropeclover::long::{self, LongRecord, Ordinary};
use ropeclover::text::{self, FormLine, Names, RecordPlace, Text, TextError, UnknownSymbol};
use ropeclover::{ABNF_BYTES, JOB_BYTES, LONG_JOB_BYTES, LONG_RECORD_BYTES, RECORD_BYTES};
use std::fmt;
use std::fs::File;
use std::io::{self, IsTerminal, Read};
use std::os::unix::ffi::OsStrExt;
use std::path::{Path, PathBuf};
use std::slice::ChunksExact;

/// The longest text in bytes: room for the longest job with long comments.
const TEXT_BYTES: usize = 1 << 24;
/// The most malformed lines that are shown.
const SHOWN_ERRORS: usize = 10;

/// A job, and what it was read from.
#[derive(Clone, Debug, Default)]
pub struct Input {
    /// The file's name, for messages.
    pub name: String,
    /// The job that was read, or that the long job is written as.
    pub job: Vec<u8>,
    /// The long job that was read, if it was one.
    pub long: Option<Vec<u8>>,
    /// The variables that were taken to write it.
    pub fresh: Vec<u8>,
    pub names: Names,
    pub source: Option<Source>,
    /// The ABNF text that was read, if it was one.
    pub abnf: Option<Abnf>,
    /// The word that its automaton reads, if it is asked about one.
    pub word: Option<AskedWord>,
    /// The forms that a text asks about.
    pub forms: Vec<FormLine>,
    /// What there is to say of a text that can be read.
    pub warnings: Vec<String>,
    /// The symbols of the form that was asked for, with names.
    pub form: Vec<String>,
}

/// A text, and where its records stand.
#[derive(Clone, Debug)]
pub struct Source {
    pub text: String,
    pub records: Vec<RecordPlace>,
}

impl Input {
    /// Bytes of records that were read; a long job is not written as an ordinary one yet.
    fn of(name: String, bytes: Vec<u8>, is_long: bool) -> Self {
        let (job, long) = if is_long { (Vec::new(), Some(bytes)) } else { (bytes, None) };
        Input { name, job, long, ..Input::default() }
    }

    /// The bytes of the records that were read.
    pub fn bytes(&self) -> &[u8] {
        self.long.as_ref().unwrap_or(&self.job)
    }

    /// The records that were read.
    fn records(&self) -> ChunksExact<'_, u8> {
        self.bytes().chunks_exact(if self.long.is_some() { LONG_RECORD_BYTES } else { RECORD_BYTES })
    }

    /// The number of records that were read.
    pub fn record_count(&self) -> usize {
        self.records().len()
    }

    /// The bytes of a record that was read, by its number.
    pub fn record_bytes(&self, number: usize) -> Option<&[u8]> {
        self.records().nth(number)
    }

    /// A record that was read, by its number; a job's record as one of a long job.
    pub fn record(&self, number: usize) -> Option<LongRecord> {
        let bytes = self.record_bytes(number)?;
        bytes.try_into().ok().or_else(|| Some(long::padded(bytes.try_into().ok()?)))
    }

    /// ABNF text with an automaton that reads a word alone. Any other input has an automaton of its own.
    pub fn with_word(self, word: &Word) -> Result<Self, Failure> {
        let Some(grammar) = self.abnf.as_ref().and_then(|abnf| abnf.grammar.as_ref()) else {
            let message = format!("{}: --word is for ABNF text, and this has an automaton of its own", self.name);
            return Err(Failure::Usage(format!("error: {message}\n")));
        };
        let job = [&grammar.job[..], &word.automaton(grammar)].concat();
        Ok(Input { job, word: Some(AskedWord::new(word, grammar)), ..self })
    }
}

/// Input that is neither a job nor a text.
#[derive(Debug)]
pub enum Unreadable {
    /// A text with lines that are no part of the format.
    Malformed { name: String, text: String, errors: Vec<TextError> },
    /// Bytes that are no UTF-8, at a line and an offset in it.
    NotText { name: String, line: usize, offset: usize },
    /// More text than is read.
    TooLong { name: String },
    /// A job where a text is due.
    JobForText { name: String },
    /// A text where a job is due.
    TextForJob { name: String },
    /// A job with a record that has no spelling.
    NoSpelling { name: String, record: usize },
}

/// How many lines are malformed but for those that are shown, in words. Of the most errors that are read there may be more.
fn malformed(errors: &[TextError], shown: usize) -> String {
    let least = if errors.len() == text::MOST_ERRORS { "at least " } else { "" };
    let more = if shown > 0 { "more " } else { "" };
    match errors.len() - shown {
        1 => format!("{least}1 {more}line is malformed"),
        lines => format!("{least}{lines} {more}lines are malformed"),
    }
}

impl fmt::Display for Unreadable {
    fn fmt(&self, f: &mut fmt::Formatter<'_>) -> fmt::Result {
        match self {
            Unreadable::Malformed { name, errors, .. } => write!(f, "{name}: {}", malformed(errors, 0)),
            Unreadable::NotText { name, line, offset } => write!(
                f,
                "{name}: neither a job, as no byte is zero, nor text, as line {line} is no UTF-8 at byte {offset}"
            ),
            Unreadable::TooLong { name } => write!(f, "{name}: the text has more than {TEXT_BYTES} bytes"),
            Unreadable::JobForText { name } => {
                write!(f, "{name}: this is a job already, as it has zero bytes; assemble takes its text")
            }
            Unreadable::TextForJob { name } => {
                write!(f, "{name}: this is text already, as no byte is zero; disassemble takes a job")
            }
            Unreadable::NoSpelling { name, record } => write!(
                f,
                "{name}: record {record} has no spelling, as its kind byte is no letter, it has too few bytes, or it is not padded by zeros"
            ),
        }
    }
}

impl Unreadable {
    /// Says what is wrong on standard error.
    pub fn tell(&self) {
        match self {
            Unreadable::Malformed { name, text, errors } => tell_malformed(name, text, errors),
            other => complain(&other.to_string()),
        }
    }
}

/// The name that may have been meant by a word that is none.
pub fn suggestion<'a>(problem: &text::Problem, names: &'a Names) -> Option<&'a str> {
    let symbols = |end: u8| (0..end).filter_map(|symbol| names.symbol_name(symbol));
    match problem {
        text::Problem::NoField(word, Some(Class::Variable)) => form::nearest(word, symbols(32)),
        text::Problem::NoField(word, Some(Class::Symbol)) => form::nearest(word, symbols(64)),
        text::Problem::NoField(word, Some(Class::State)) => {
            form::nearest(word, (0..32).filter_map(|state| names.state_name(state)))
        }
        text::Problem::NoForm(UnknownSymbol::Word(word)) => form::nearest(word, symbols(64)),
        text::Problem::NoKind(word) => form::nearest(word, ["name", "state", "form"].into_iter()),
        _ => None,
    }
}

fn tell_malformed(name: &str, text: &str, errors: &[TextError]) {
    let names = text::names(text);
    let page = Page { name, text, first_number: 1 };
    for error in errors.iter().take(SHOWN_ERRORS) {
        let mut marks = vec![Mark::primary(error.span.line - 1, error.span.start, error.span.end, "")];
        if let text::Problem::NamedAlready(earlier) | text::Problem::NameTaken(earlier) = &error.problem {
            marks.push(Mark::secondary(earlier.line - 1, earlier.start, earlier.end, "first here"));
        }
        let near = suggestion(&error.problem, &names);
        let notes: Vec<String> = near.iter().map(|name| format!("did you mean '{name}'?")).collect();
        quote::show(&page, None, &error.problem.to_string(), &marks, &notes);
    }
    if errors.len() > SHOWN_ERRORS {
        complain(&format!("{name}: {}", malformed(errors, SHOWN_ERRORS)));
    }
}

/// The bytes of an input: a job's, at most one more than a job may have, a long job's likewise, or a text's.
enum Bytes {
    Job(Vec<u8>),
    Long(Vec<u8>),
    Text(Vec<u8>),
}

/// How bytes that are no text are read.
#[derive(Clone, Copy)]
enum Reading {
    /// As a job or a long job, whichever they are.
    Job,
    /// As a long job.
    Long,
}

/// Whether the input is standard input.
fn is_standard(file: Option<&Path>) -> bool {
    file.map_or(true, |path| path == Path::new("-"))
}

/// Whether a file is ABNF text by its name.
fn is_abnf(file: Option<&Path>) -> bool {
    file.is_some_and(|path| path.as_os_str().as_bytes().ends_with(b".abnf"))
}

/// The inputs that files on the command line stand for: standard input where there is none.
pub fn files(files: &[PathBuf]) -> Vec<Option<&Path>> {
    match files.is_empty() {
        true => vec![None],
        false => files.iter().map(|file| Some(file.as_path())).collect(),
    }
}

/// The name of an input in messages.
pub fn name(file: Option<&Path>) -> String {
    match file {
        Some(path) if !is_standard(file) => quote::visible_path(path),
        _ => "<stdin>".into(),
    }
}

/// Every accepted job has zero bytes, a long one too, and a text has none. So what has one within the length of a job is no text, and no more of it
/// is read than tells that it is too long.
fn sort(mut reader: impl Read, reading: Reading) -> io::Result<Bytes> {
    let mut bytes = Vec::new();
    reader.by_ref().take(JOB_BYTES as u64 + 1).read_to_end(&mut bytes)?;
    let (most, sort): (usize, fn(Vec<u8>) -> Bytes) = match reading {
        _ if !bytes.contains(&0) => (TEXT_BYTES, Bytes::Text),
        Reading::Job if !long::is_long(&bytes) => (JOB_BYTES, Bytes::Job),
        _ => (LONG_JOB_BYTES, Bytes::Long),
    };
    // A terminal that has ended its input must not be asked again.
    if bytes.len() > JOB_BYTES {
        reader.take((most + 1 - bytes.len()) as u64).read_to_end(&mut bytes)?;
    }
    Ok(sort(bytes))
}

/// What is read from a file or standard input; a terminal is told what is due.
fn read_with<T>(
    file: Option<&Path>,
    due: &str,
    read: impl FnOnce(&mut dyn Read) -> io::Result<T>,
) -> Result<T, Failure> {
    let read = match file {
        Some(path) if !is_standard(file) => File::open(path).and_then(|mut file| read(&mut file)),
        _ => {
            if io::stdin().is_terminal() {
                complain(&format!("reading {due} from the terminal"));
            }
            read(&mut io::stdin().lock())
        }
    };
    read.map_err(|error| Failure::File { name: name(file), error })
}

fn read_bytes(file: Option<&Path>, reading: Reading) -> Result<Bytes, Failure> {
    read_with(file, "a job or its text", |reader| sort(reader, reading))
}

/// Reads ABNF text, of which no more is read than tells that it is too long.
pub fn read_abnf(file: Option<&Path>) -> Result<Input, Failure> {
    let mut bytes = Vec::new();
    read_with(file, "ABNF text", |reader| reader.take(ABNF_BYTES as u64 + 1).read_to_end(&mut bytes))?;
    let (abnf, refusal) = Abnf::read(bytes);
    let (job, names) = match &abnf.grammar {
        Some(grammar) => (grammar.job.clone(), grammar.names().clone()),
        None => Default::default(),
    };
    let input = Input { name: name(file), job, names, abnf: Some(abnf), ..Input::default() };
    match refusal {
        None => Ok(input),
        Some(refusal) => Err(Failure::Refused { refusal, input: Box::new(input), format: Format::Text }),
    }
}

/// The text of bytes that are UTF-8, without a byte order mark.
fn decode(name: &str, bytes: Vec<u8>) -> Result<String, Unreadable> {
    if bytes.len() > TEXT_BYTES {
        return Err(Unreadable::TooLong { name: name.into() });
    }
    let text = String::from_utf8(bytes).map_err(|error| {
        let before = &error.as_bytes()[..error.utf8_error().valid_up_to()];
        let line_start = before.iter().rposition(|byte| *byte == b'\n').map_or(0, |at| at + 1);
        let line = 1 + before.iter().filter(|byte| **byte == b'\n').count();
        Unreadable::NotText { name: name.into(), line, offset: before.len() - line_start }
    })?;
    Ok(text.strip_prefix('\u{feff}').map(String::from).unwrap_or(text))
}

/// A line for the names that no record uses, if there are any: perhaps one was meant where another stands.
fn unused(name: &str, text: &Text) -> Vec<String> {
    match text.unused_names()[..] {
        [] => vec![],
        [one] => vec![format!("{name}: no record uses the name {one}")],
        ref several => vec![format!("{name}: no record uses the names {}", several.join(", "))],
    }
}

fn read_text(name: String, bytes: Vec<u8>) -> Result<Input, Unreadable> {
    let text = decode(&name, bytes)?;
    match text::read(&text) {
        Ok(read) => {
            let warnings = unused(&name, &read);
            let Text { bytes, is_long, names, records, forms } = read;
            let source = Some(Source { text, records });
            Ok(Input { names, source, forms, warnings, ..Input::of(name, bytes, is_long) })
        }
        Err(errors) => Err(Unreadable::Malformed { name, text, errors }),
    }
}

/// Reads a job, a long job or a text, and leaves a long job as it is. ABNF text is told by the file's name or by the caller.
fn read_silently(file: Option<&Path>, reading: Reading, abnf: bool) -> Result<Input, Failure> {
    if abnf || is_abnf(file) {
        return read_abnf(file);
    }
    let name = name(file);
    match read_bytes(file, reading)? {
        Bytes::Job(job) => Ok(Input::of(name, job, false)),
        Bytes::Long(long) => Ok(Input::of(name, long, true)),
        Bytes::Text(bytes) => Ok(read_text(name, bytes)?),
    }
}

/// As [`read_silently`], and says what there is to say of the text.
fn read_as(file: Option<&Path>, reading: Reading, abnf: bool) -> Result<Input, Failure> {
    let input = read_silently(file, reading, abnf)?;
    input.warnings.iter().for_each(|warning| complain(warning));
    Ok(input)
}

/// Writes a long job as an ordinary one. A variable that was taken for it is named by what it stands for, whatever a line of the text says.
fn binarized(input: Input) -> Result<Input, Failure> {
    let Some(long) = &input.long else { return Ok(input) };
    match long::ordinary(long, &input.names) {
        Ok(Ordinary { job, names, fresh }) => Ok(Input { job, names, fresh, ..input }),
        Err(refusal) => Err(Failure::Refused { refusal, input: Box::new(input), format: Format::Text }),
    }
}

/// Reads a job or its text, and leaves it to the caller to tell the warnings.
pub fn read_for_later(file: Option<&Path>, abnf: bool) -> Result<Input, Failure> {
    binarized(read_silently(file, Reading::Job, abnf)?)
}

/// Reads a job or its text.
pub fn read(file: Option<&Path>, abnf: bool) -> Result<Input, Failure> {
    binarized(read_as(file, Reading::Job, abnf)?)
}

/// Reads a long job, or a text as one. The rules of ABNF text are split as it is read.
pub fn read_long(file: Option<&Path>, abnf: bool) -> Result<Input, Failure> {
    let mut input = read_as(file, Reading::Long, abnf)?;
    if input.long.is_none() && input.abnf.is_none() {
        input.long = Some((0..).map_while(|number| input.record(number)).flatten().collect());
    }
    binarized(input)
}

/// Reads a text where a job is no use.
pub fn read_text_only(file: Option<&Path>, abnf: bool) -> Result<Input, Failure> {
    let input = read_as(file, Reading::Job, abnf)?;
    match input.source.is_some() || input.abnf.is_some() {
        true => Ok(input),
        false => Err(Unreadable::JobForText { name: input.name }.into()),
    }
}

/// Reads a job, a long job or ABNF text where a text of records is no use. Empty input is the empty job.
pub fn read_job_only(file: Option<&Path>, abnf: bool) -> Result<Input, Failure> {
    if abnf || is_abnf(file) {
        return read_abnf(file);
    }
    let name = name(file);
    match read_bytes(file, Reading::Job)? {
        Bytes::Job(job) => Ok(Input::of(name, job, false)),
        Bytes::Long(long) => Ok(Input::of(name, long, true)),
        Bytes::Text(bytes) if bytes.is_empty() => Ok(Input::of(name, bytes, false)),
        Bytes::Text(_) => Err(Unreadable::TextForJob { name }.into()),
    }
}
