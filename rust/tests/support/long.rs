//! The conversion of long bodies once more, written apart from the library and from the request's words: a record is read into a rule or kept as it
//! is, what it needs is counted before anything is written, and each record becomes a list of its own.
use super::jobs::Record;
use super::machine::{check_form, names, Refused};
use std::collections::{BTreeSet, HashSet, VecDeque};

/// A record as it is read.
pub enum Entry {
    Rule { head: u8, body: Vec<u8> },
    Plain(Record),
}

/// Reads twelve bytes, or gives the number that refuses them: 3, 4 or 15.
fn read(bytes: &[u8]) -> Result<Entry, u64> {
    if bytes[0] != b'L' {
        let record = [bytes[0], bytes[1], bytes[2], bytes[3]];
        check_form(&record)?;
        return if bytes[4..] == [0; 8] { Ok(Entry::Plain(record)) } else { Err(15) };
    }
    let (head, length) = (bytes[1], bytes[2]);
    let (body, padding) = bytes[3..].split_at(length.min(8) as usize);
    if head > 31 || body.iter().any(|symbol| *symbol > 63) {
        return Err(4);
    }
    if length > 8 || padding.iter().any(|byte| *byte != 0) {
        return Err(15);
    }
    Ok(Entry::Rule { head, body: body.to_vec() })
}

impl Entry {
    /// Whether the record is a plain one of this kind.
    fn is(&self, kind: u8) -> bool {
        matches!(self, Entry::Plain(record) if record[0] == kind)
    }

    /// The symbols that the record names.
    fn names(&self) -> Vec<u8> {
        match self {
            Entry::Rule { head, body } => body.iter().chain([head]).copied().collect(),
            Entry::Plain(record) => names(record),
        }
    }
}

/// The first walk.
pub fn entries(text: &[u8]) -> Result<Vec<Entry>, Refused> {
    let mut entries: Vec<Entry> = Vec::new();
    for (number, bytes) in text.chunks(12).enumerate() {
        let entry = read(bytes).map_err(|refusal| (refusal, number as u64))?;
        for kind in *b"SI" {
            if entry.is(kind) && entries.iter().any(|earlier| earlier.is(kind)) {
                return Err((6, number as u64));
            }
        }
        entries.push(entry);
    }
    Ok(entries)
}

/// The variables that no record names, lowest first.
fn free(entries: &[Entry]) -> VecDeque<u8> {
    let named: BTreeSet<u8> = entries.iter().flat_map(Entry::names).collect();
    (0..32).filter(|variable| !named.contains(variable)).collect()
}

/// What a rule is written as, its tails taken from the free variables; nothing where these are too few.
fn split(head: u8, body: &[u8], free: &mut VecDeque<u8>) -> Option<Vec<Record>> {
    let [front @ .., before, last] = body else {
        return Some(vec![body.first().map_or([b'E', head, 0, 0], |symbol| [b'U', head, *symbol, 0])]);
    };
    if front.len() > free.len() {
        return None;
    }
    // Each symbol of the front goes before a tail, and the last two stand together.
    let tails: Vec<u8> = free.drain(..front.len()).collect();
    let heads = [&[head][..], &tails].concat();
    let pairs = front.iter().zip(&tails).chain([(before, last)]);
    Some(heads.iter().zip(pairs).map(|(head, (left, right))| [b'P', *head, *left, *right]).collect())
}

/// The second walk.
fn written(entries: &[Entry]) -> Result<Vec<Record>, Refused> {
    let mut free = free(entries);
    let (mut written, mut seen, mut rules) = (Vec::new(), HashSet::new(), 0);
    for (number, entry) in entries.iter().enumerate() {
        let refused = |refusal| (refusal, number as u64);
        let records = match entry {
            Entry::Rule { head, body } => split(*head, body, &mut free).ok_or(refused(14))?,
            Entry::Plain(record) => vec![*record],
        };
        for record in records {
            if !seen.insert(record) {
                return Err(refused(5));
            }
            rules += usize::from(b"EUP".contains(&record[0]));
            if rules > 256 {
                return Err(refused(7));
            }
            written.push(record);
        }
    }
    Ok(written)
}

/// The records that a text is written as into a buffer of this length.
pub fn binarize(text: &[u8], room: usize) -> Result<Vec<Record>, Refused> {
    let length = text.len();
    if length > 49_152 {
        return Err((2, length as u64));
    }
    if length % 12 != 0 {
        return Err((1, length as u64 / 12));
    }
    let entries = entries(text)?;
    let written = written(&entries)?;
    for (kind, refusal) in [(b'S', 8), (b'I', 9)] {
        if !entries.iter().any(|entry| entry.is(kind)) {
            return Err((refusal, entries.len() as u64));
        }
    }
    let needed = written.concat().len();
    if needed > 16_384 {
        return Err((2, needed as u64));
    }
    if needed > room {
        return Err((13, written.len() as u64));
    }
    Ok(written)
}
