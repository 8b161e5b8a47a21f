//! What a refusal means for the input: the lines that it speaks of, and what to mend.
use crate::abnf::{self, Abnf};
use crate::input::Input;
use crate::quote::{self, Mark, Page};
use ropeclover::format::Class;
use ropeclover::long::{bad_field, class, production, LongRecord};
use ropeclover::text::{long_spelling, ordinal, spelling};
use ropeclover::{
    show_refused, Place, Refusal, BODY_SYMBOLS, FORM_SYMBOLS, JOB_BYTES, LONG_JOB_BYTES, RECORDS, RECORD_BYTES,
    SYMBOLS, VARIABLES,
};

/// The words of a record that was read, by its number.
fn spelled(input: &Input, number: usize) -> Option<Vec<String>> {
    if input.long.is_some() {
        return Some(long_spelling(&input.record(number)?, &input.names));
    }
    Some(spelling(input.record_bytes(number)?.try_into().ok()?, &input.names).to_vec())
}

/// The lines of the input's records as they are quoted: the text's own, or a line for each record of a job.
struct Lines<'a> {
    input: &'a Input,
    /// The spelled records of an input that has no text.
    spelled: String,
}

impl<'a> Lines<'a> {
    fn new(input: &'a Input) -> Self {
        let spelled = match input.source {
            Some(_) => String::new(),
            None => (0..).map_while(|number| Some(spelled(input, number)?.join(" ") + "\n")).collect(),
        };
        Lines { input, spelled }
    }

    fn page(&self) -> Page<'_> {
        let name = &self.input.name;
        match &self.input.source {
            Some(source) => Page { name, text: &source.text, first_number: 1 },
            None => Page { name, text: &self.spelled, first_number: 0 },
        }
    }

    /// The line of a record, and the words of it.
    fn words(&self, number: usize) -> Option<(usize, Vec<(usize, usize)>)> {
        if let Some(source) = &self.input.source {
            let place = source.records.get(number)?;
            return Some((place.line - 1, place.words.iter().map(|word| (word.start, word.end)).collect()));
        }
        let mut at = 0;
        let words = spelled(self.input, number)?;
        let place = |word: &String| {
            at += word.len() + 1;
            (at - word.len() - 1, at - 1)
        };
        Some((number, words.iter().map(place).collect()))
    }

    /// A mark at a word of a record, its kind being word 0.
    fn word(&self, number: usize, word: usize, message: String) -> Option<Mark> {
        let (line, words) = self.words(number)?;
        let (start, end) = *words.get(word)?;
        Some(Mark::primary(line, start, end, message))
    }

    /// The place of a whole record.
    fn whole(&self, number: usize) -> Option<(usize, usize, usize)> {
        let (line, words) = self.words(number)?;
        Some((line, words.first()?.0, words.last()?.1))
    }

    fn record(&self, number: usize, message: &str) -> Option<Mark> {
        self.whole(number).map(|(line, start, end)| Mark::primary(line, start, end, message))
    }

    fn earlier(&self, number: usize, message: &str) -> Option<Mark> {
        self.whole(number).map(|(line, start, end)| Mark::secondary(line, start, end, message))
    }

    /// The bytes of the record that was read from a place.
    fn bytes(&self, place: Place) -> LongRecord {
        self.input.record(place.record()).unwrap_or_default()
    }

    /// The number of the first record that is as it says.
    fn first(&self, found: impl Fn(&LongRecord) -> bool) -> usize {
        (0..).map_while(|number| self.input.record(number)).position(|record| found(&record)).unwrap_or(0)
    }
}

/// The message at a field outside its class.
fn field_message(record: LongRecord, field: usize) -> String {
    let class = class(record[0], field).map_or_else(String::new, Class::description);
    let article = if matches!(record[0], b'E' | b'F' | b'I' | b'L' | b'S') { "an" } else { "a" };
    format!("field {field} of {article} {} record is {class}", record[0] as char)
}

/// Whether two records are written as the same one.
fn written_alike(one: &LongRecord, other: &LongRecord) -> bool {
    one == other || (production(one).is_some() && production(one) == production(other))
}

/// The headline of a refusal, and its marks where the records they speak of are there.
type Told = (String, Vec<Option<Mark>>);

/// What is told of too many records. Of bytes, only so much was read as tells it.
fn too_many_records(lines: &Lines<'_>, what: &str, most: usize) -> Told {
    if lines.input.source.is_none() {
        return (format!("the {what} has more than {most} bytes, {RECORDS} records"), vec![]);
    }
    let headline = format!("the text has {} records; a job has at most {RECORDS}", lines.input.record_count());
    (headline, vec![lines.record(RECORDS, &format!("the {} record", ordinal(RECORDS + 1)))])
}

/// What is told of one record.
fn told_of(lines: &Lines<'_>, place: Place, headline: &str, message: &str) -> Told {
    (headline.into(), vec![lines.record(place.record(), message)])
}

/// What is told of a record and an earlier one that it goes with.
fn told_of_two(lines: &Lines<'_>, places: (Place, usize), headline: &str, messages: (&str, &str)) -> Told {
    let (later, earlier) = places;
    (headline.into(), vec![lines.record(later.record(), messages.0), lines.earlier(earlier, messages.1)])
}

/// What is told of a long job that cannot be written.
fn told_of_long(refusal: Refusal, lines: &Lines<'_>) -> Told {
    match refusal {
        Refusal::WrittenTwice { place } => {
            let earlier = lines.first(|other| written_alike(other, &lines.bytes(place)));
            let headline = "a record is written that stands already";
            told_of_two(lines, (place, earlier), headline, ("written again here", "the same"))
        }
        Refusal::TooManyWritten { place, most } => {
            let message = format!("the {} rule is written for this record", ordinal(most + 1));
            told_of(lines, place, &format!("a job has at most {most} rules"), &message)
        }
        Refusal::TooFewVariables { place } => {
            told_of(lines, place, "too few variables are free", "this takes more variables than are left")
        }
        Refusal::IllPadded { place } => told_of(
            lines,
            place,
            &format!("a length is over {BODY_SYMBOLS}, or a padding byte is not zero"),
            &format!("a length is 0 to {BODY_SYMBOLS}, and the bytes past the body or the fields are 0"),
        ),
        Refusal::LongJobTooLong { .. } => too_many_records(lines, "long job", LONG_JOB_BYTES),
        Refusal::WrittenTooLong { bytes } => {
            let records = bytes / RECORD_BYTES as u64;
            (format!("the job written has {records} records; a job has at most {RECORDS}"), vec![])
        }
        other => (other.to_string(), vec![]),
    }
}

/// What is told of a refused job.
fn told(refusal: Refusal, lines: &Lines<'_>) -> Told {
    match refusal {
        Refusal::UnknownKind { place } => {
            let takes_long = lines.input.long.is_some() || lines.input.source.is_some();
            let kinds = if takes_long { "E, U, P, T, I, F, S and L" } else { "E, U, P, T, I, F and S" };
            let message = format!("the kinds are {kinds}");
            ("unknown kind of record".into(), vec![lines.word(place.record(), 0, message)])
        }
        Refusal::FieldOutsideClass { place } => {
            let bytes = lines.bytes(place);
            let field = bad_field(&bytes).unwrap_or(1);
            let message = field_message(bytes, field);
            ("a field is outside its class".into(), vec![lines.word(place.record(), field, message)])
        }
        Refusal::Repeated { place } => {
            let earlier = lines.first(|other| *other == lines.bytes(place));
            told_of_two(lines, (place, earlier), "a record is repeated", ("repeated here", "the same record"))
        }
        Refusal::Second { place } => {
            let kind = lines.bytes(place)[0];
            let what = if kind == b'S' { "start symbol" } else { "initial state" };
            let earlier = lines.first(|other| other[0] == kind);
            let headline = format!("there is one {what}, so one {} record", kind as char);
            told_of_two(lines, (place, earlier), &headline, ("the second", "the first"))
        }
        Refusal::TooManyRules { place, most } => {
            let message = format!("the {} rule", ordinal(most + 1));
            told_of(lines, place, &format!("a job has at most {most} rules"), &message)
        }
        Refusal::JobTooLong { .. } => too_many_records(lines, "job", JOB_BYTES),
        Refusal::NoStart { .. } => ("no S record says which variable is the start symbol".into(), vec![]),
        Refusal::NoInitial { .. } => ("no I record says which state is the initial one".into(), vec![]),
        other => told_of_long(other, lines),
    }
}

/// Whether a job looks as if a text was meant: it has lines of visible characters.
fn looks_like_text(job: &[u8]) -> bool {
    let visible = job.iter().filter(|byte| byte.is_ascii_graphic() || byte.is_ascii_whitespace()).count();
    job.contains(&b'\n') && visible * 4 >= job.len() * 3
}

/// The bytes of the record that is refused, as a note: of a job the part that the library shows.
fn bytes_note(refusal: Refusal, input: &Input) -> Option<String> {
    let place = refusal.record_place().filter(|_| input.source.is_none())?;
    let number = place.record();
    let shown = if input.long.is_some() { input.record_bytes(number)? } else { show_refused(&input.job) };
    let bytes: String = shown.iter().map(|byte| format!(" {byte:02x}")).collect();
    Some(format!("record {number}, counted from 0: bytes{bytes} at offset {}", place.offset()))
}

/// What else helps to mend a job.
fn notes(refusal: Refusal, input: &Input) -> Vec<String> {
    let mut notes = Vec::from_iter(bytes_note(refusal, input));
    match refusal {
        Refusal::NoStart { .. } => notes.push("a record 'S 0' makes variable 0 the start symbol".into()),
        Refusal::NoInitial { .. } => notes.push("a record 'I 0' makes state 0 the initial one".into()),
        Refusal::TooFewVariables { .. } => notes.push(format!(
            "free are the variables of 0 to {} that no record names; a body of n symbols, n over 2, takes n - 2 of them",
            VARIABLES - 1
        )),
        _ => {}
    }
    if input.source.is_none() && looks_like_text(input.bytes()) {
        let zero = input.bytes().iter().position(|byte| *byte == 0).unwrap_or(0);
        notes.push(format!("this looks like text, but byte {zero} is zero, as in a job"));
    }
    notes
}

/// A mark in the form, its symbols between blanks, for a refusal that speaks of it.
fn form_mark(refusal: Refusal, form: &[String]) -> Option<Mark> {
    let start = |at: usize| form[..at].iter().map(|word| word.len() + 1).sum::<usize>();
    match refusal {
        Refusal::NoSymbol { position } => {
            let at = position as usize;
            let end = start(at) + form.get(at)?.len();
            Some(Mark::primary(0, start(at), end, format!("a symbol is 0 to {}", SYMBOLS - 1)))
        }
        Refusal::FormTooLong { .. } => {
            let end = start(FORM_SYMBOLS) + form.get(FORM_SYMBOLS)?.len();
            Some(Mark::primary(0, start(FORM_SYMBOLS), end, format!("the {} symbol", ordinal(FORM_SYMBOLS + 1))))
        }
        _ => None,
    }
}

/// Says on standard error why an ABNF text is refused, quoting the file.
fn explain_abnf(code: &str, told: &abnf::Told, abnf: &Abnf, name: &str) {
    // What stands before a place that is quoted is ASCII, so that offsets are those of the file.
    let text = String::from_utf8_lossy(&abnf.file);
    let marks = if text.is_empty() { vec![] } else { told.marks(&abnf.file) };
    let headline = if marks.is_empty() { format!("{name}: {}", told.message()) } else { told.headline.clone() };
    quote::show(&Page { name, text: &text, first_number: 1 }, Some(code), &headline, &marks, &told.notes);
}

/// Says on standard error why the input is refused.
pub fn explain(refusal: Refusal, input: &Input) {
    let code = format!("refused {} at {}", refusal.number(), refusal.place());
    if let Some(mark) = form_mark(refusal, &input.form) {
        let form = input.form.join(" ");
        let page = Page { name: "form", text: &form, first_number: 1 };
        return quote::show(&page, Some(&code), &refusal.to_string(), &[mark], &[]);
    }
    if let Some((told, abnf)) = input.abnf.as_ref().and_then(|abnf| Some((abnf::told(refusal, abnf)?, abnf))) {
        return explain_abnf(&code, &told, abnf, &input.name);
    }
    let lines = Lines::new(input);
    let (headline, marks) = told(refusal, &lines);
    let marks: Vec<Mark> = marks.into_iter().flatten().collect();
    let headline = if marks.is_empty() { format!("{}: {headline}", input.name) } else { headline };
    quote::show(&lines.page(), Some(&code), &headline, &marks, &notes(refusal, input));
}

/// The line of the text, from 1, that a refused record stands on.
pub fn line(refusal: Refusal, input: &Input) -> Option<usize> {
    let source = input.source.as_ref()?;
    source.records.get(refusal.record()?).map(|place| place.line)
}
