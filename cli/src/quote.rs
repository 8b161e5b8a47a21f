//! Messages that quote lines of the input, with a caret at what they speak of.
use codespan_reporting::diagnostic::{Diagnostic, Label};
use codespan_reporting::files::{Error, Files};
use codespan_reporting::term::termcolor::{BufferWriter, ColorChoice};
use codespan_reporting::term::{self, Chars};
use std::io::{self, IsTerminal, Write};
use std::ops::Range;
use std::os::unix::ffi::OsStrExt;
use std::path::Path;

/// The most of a line that is quoted, in bytes before and after the first mark.
const WINDOW: usize = 100;

/// The text whose lines marks point into.
pub struct Page<'a> {
    pub name: &'a str,
    pub text: &'a str,
    /// The number that is shown for the first line.
    pub first_number: usize,
}

/// A part of a line, by the line's index and byte offsets, and what is said of it.
#[derive(Clone, Debug)]
pub struct Mark {
    line: usize,
    range: Range<usize>,
    message: String,
    is_primary: bool,
}

impl Mark {
    pub fn primary(line: usize, start: usize, end: usize, message: impl Into<String>) -> Self {
        Mark { line, range: start..end, message: message.into(), is_primary: true }
    }

    pub fn secondary(line: usize, start: usize, end: usize, message: impl Into<String>) -> Self {
        Mark { is_primary: false, ..Mark::primary(line, start, end, message) }
    }
}

/// A character as it may be shown: control and direction characters could disturb a terminal.
fn visible_char(c: char) -> char {
    match c {
        '\t' | '\n' => c,
        '\0'..='\x1f' => char::from_u32(0x2400 + c as u32).unwrap_or('\u{fffd}'),
        '\x7f'..='\u{9f}'
        | '\u{200b}'..='\u{200f}'
        | '\u{2028}'..='\u{202e}'
        | '\u{2060}'..='\u{206f}'
        | '\u{feff}' => '\u{fffd}',
        _ => c,
    }
}

/// Text as it may be shown.
pub fn visible(text: &str) -> String {
    text.chars().map(visible_char).collect()
}

/// A word as it may be shown on a line.
pub fn visible_word(text: &str) -> String {
    visible(text).replace(['\n', '\t'], "\u{fffd}")
}

/// A file's name as it may be shown, different for different names: what cannot be shown, and bytes that are no UTF-8, by a backslash.
pub fn visible_path(path: &Path) -> String {
    let mut shown = String::new();
    let mut rest = path.as_os_str().as_bytes();
    while !rest.is_empty() {
        let length = std::str::from_utf8(rest).map_or_else(|error| error.valid_up_to(), str::len);
        for c in String::from_utf8_lossy(&rest[..length]).chars() {
            match c {
                '\\' | '\t' | '\n' => shown.extend(c.escape_default()),
                _ if visible_char(c) != c => shown.extend(c.escape_default()),
                _ => shown.push(c),
            }
        }
        rest = &rest[length..];
        if let Some((byte, behind)) = rest.split_first() {
            shown.push_str(&format!("\\x{byte:02x}"));
            rest = behind;
        }
    }
    shown
}

/// A line as it is quoted.
struct Quoted<'a> {
    /// Its index in the text.
    index: usize,
    line: &'a str,
    text: String,
    /// The part of the line that is shown.
    shown: Range<usize>,
    /// Its offset among the quoted lines.
    start: usize,
}

/// The nearest offset at or below `at` that is between characters.
fn boundary(line: &str, at: usize) -> usize {
    (0..=at.min(line.len())).rev().find(|at| line.is_char_boundary(*at)).unwrap_or(0)
}

impl<'a> Quoted<'a> {
    fn new((index, line): (usize, &'a str), focus: usize, start: usize) -> Self {
        let shown = boundary(line, focus.saturating_sub(WINDOW))..boundary(line, focus.saturating_add(WINDOW));
        let cut = |is_cut| if is_cut { "…" } else { "" };
        let text = format!("{}{}{}", cut(shown.start > 0), visible(&line[shown.clone()]), cut(shown.end < line.len()));
        Quoted { index, line, text, shown, start }
    }

    /// Where an offset of the line stands among the quoted lines.
    fn place(&self, at: usize) -> usize {
        let at = boundary(self.line, at).clamp(self.shown.start, self.shown.end);
        let before = visible(&self.line[self.shown.start..at]).len();
        self.start + before + if self.shown.start > 0 { '…'.len_utf8() } else { 0 }
    }
}

/// The lines that a message may show: those that are marked, and the one behind each, which is shown where it stands between two of them.
struct Excerpt<'a> {
    page: &'a Page<'a>,
    lines: Vec<Quoted<'a>>,
    text: String,
}

impl<'a> Excerpt<'a> {
    fn new(page: &'a Page<'a>, marks: &[Mark]) -> Self {
        let mut excerpt = Excerpt { page, lines: Vec::new(), text: String::new() };
        let last = marks.iter().map(|mark| mark.line).max().unwrap_or(0);
        let is_near = |index: usize| marks.iter().any(|mark| index == mark.line || index == mark.line + 1);
        for line in page.text.lines().enumerate().take(last + 1).filter(|(index, _)| is_near(*index)) {
            let focus = marks.iter().find(|mark| mark.line == line.0).map_or(0, |mark| mark.range.start);
            let quoted = Quoted::new(line, focus, excerpt.text.len());
            excerpt.text.push_str(&quoted.text);
            excerpt.text.push('\n');
            excerpt.lines.push(quoted);
        }
        excerpt
    }

    /// The quoted line of an index in the text.
    fn quoted(&self, index: usize) -> Option<&Quoted<'a>> {
        self.lines.iter().find(|quoted| quoted.index == index)
    }

    fn label(&self, mark: &Mark) -> Option<Label<()>> {
        let quoted = self.quoted(mark.line)?;
        let range = quoted.place(mark.range.start)..quoted.place(mark.range.end);
        let label = if mark.is_primary { Label::primary((), range) } else { Label::secondary((), range) };
        Some(label.with_message(&mark.message))
    }
}

impl<'a> Files<'a> for Excerpt<'a> {
    type FileId = ();
    type Name = &'a str;
    type Source = &'a str;

    fn name(&'a self, (): ()) -> Result<&'a str, Error> {
        Ok(self.page.name)
    }

    fn source(&'a self, (): ()) -> Result<&'a str, Error> {
        Ok(&self.text)
    }

    fn line_index(&'a self, (): (), byte: usize) -> Result<usize, Error> {
        let quoted = self.lines[..self.lines.partition_point(|line| line.start <= byte)].last();
        Ok(quoted.map_or(0, |quoted| quoted.index))
    }

    fn line_number(&'a self, (): (), line: usize) -> Result<usize, Error> {
        Ok(line + self.page.first_number)
    }

    fn column_number(&'a self, (): (), line: usize, byte: usize) -> Result<usize, Error> {
        let range = self.line_range((), line)?;
        let shown = self.text[range.start..byte.clamp(range.start, range.end)].chars().count();
        // What is cut off before counts, and the sign that stands for it does not.
        let cut = self.quoted(line).map_or(0, |quoted| quoted.line[..quoted.shown.start].chars().count());
        Ok(1 + shown + cut.saturating_sub(1))
    }

    fn line_range(&'a self, (): (), line: usize) -> Result<Range<usize>, Error> {
        let max = self.lines.last().map_or(0, |quoted| quoted.index);
        let quoted = self.quoted(line).ok_or(Error::LineTooLarge { given: line, max })?;
        Ok(quoted.start..quoted.start + quoted.text.len() + 1)
    }
}

/// Writes a message to standard error: a headline, the marked lines, and notes.
pub fn show(page: &Page<'_>, code: Option<&str>, headline: &str, marks: &[Mark], notes: &[String]) {
    let excerpt = Excerpt::new(page, marks);
    let mut diagnostic = Diagnostic::error().with_message(headline).with_notes(notes.to_vec());
    diagnostic.code = code.map(String::from);
    diagnostic.labels = marks.iter().filter_map(|mark| excerpt.label(mark)).collect();
    let choice = if io::stderr().is_terminal() { ColorChoice::Auto } else { ColorChoice::Never };
    let config = term::Config { chars: Chars::ascii(), ..term::Config::default() };
    let writer = BufferWriter::stderr(choice);
    let mut buffer = writer.buffer();
    // Where standard error cannot be written, only the status is left to tell.
    if term::emit(&mut buffer, &config, &excerpt, &diagnostic).is_ok() {
        let only_zero = !marks.is_empty() && marks.iter().all(|mark| mark.line + page.first_number == 0);
        let _ = io::stderr().write_all(&if only_zero { indented(buffer.as_slice()) } else { buffer.into_inner() });
    }
}

/// The lines of a message that begin with a blank, one further to the right: the margin is made for no digits where the only line shown has the
/// number 0.
fn indented(message: &[u8]) -> Vec<u8> {
    let lines = message.split_inclusive(|byte| *byte == b'\n');
    lines.flat_map(|line| [if line.starts_with(b" ") { &b" "[..] } else { b"" }, line]).collect::<Vec<_>>().concat()
}
