//! A reader of the part of ABNF that the library reads, written apart from it: by recursive descent over the rules of
//! RFC 5234 and RFC 7405, a function for each, without pieces or a table of what may follow.

/// A character that a text stands for, and whether the other case of a letter serves too.
pub type Character = (u8, bool);

#[derive(Clone, Debug, PartialEq, Eq)]
pub enum Element {
    Name(Vec<u8>),
    Characters(Vec<Character>),
}

/// What a line says.
#[derive(Clone, Debug, PartialEq, Eq)]
pub struct Line {
    pub name: Vec<u8>,
    pub adds: bool,
    pub alternatives: Vec<Vec<Element>>,
}

/// The lines of a text, or the offset at which it leaves the part.
pub fn read(newer: bool, text: &[u8]) -> Result<Vec<Line>, usize> {
    read_with_places(newer, text).map(|(lines, _)| lines)
}

/// The lines of a text, and where its names stand, one after the other; or the offset at which it leaves the part.
pub fn read_with_places(newer: bool, text: &[u8]) -> Result<(Vec<Line>, Vec<usize>), usize> {
    let mut reader = Reader { newer, text, at: 0, names: vec![] };
    let mut lines = vec![reader.rule()?];
    while reader.at < text.len() {
        lines.push(reader.rule()?);
    }
    Ok((lines, reader.names))
}

struct Reader<'a> {
    newer: bool,
    text: &'a [u8],
    at: usize,
    /// Where the names before stand.
    names: Vec<usize>,
}

impl<'a> Reader<'a> {
    fn rest(&self) -> &[u8] {
        &self.text[self.at..]
    }

    fn next(&self) -> Option<u8> {
        self.rest().first().copied()
    }

    /// Goes past these bytes if they are the next.
    fn take(&mut self, bytes: &[u8]) -> bool {
        let there = self.rest().starts_with(bytes);
        if there {
            self.at += bytes.len();
        }
        there
    }

    /// Goes past all bytes that pass a test.
    fn take_while(&mut self, test: impl Fn(u8) -> bool) -> &'a [u8] {
        let rest = &self.text[self.at..];
        let taken = &rest[..rest.iter().position(|b| !test(*b)).unwrap_or(rest.len())];
        self.at += taken.len();
        taken
    }

    fn blanks(&mut self) -> usize {
        self.take_while(|b| b == b' ' || b == b'\t').len()
    }

    fn rule(&mut self) -> Result<Line, usize> {
        let name = self.rulename()?;
        let adds = self.defined_as()?;
        let alternatives = self.elements()?;
        self.line_end()?;
        Ok(Line { name, adds, alternatives })
    }

    fn rulename(&mut self) -> Result<Vec<u8>, usize> {
        match self.next() {
            Some(b) if b.is_ascii_alphabetic() => {
                self.names.push(self.at);
                Ok(self.take_while(|b| b.is_ascii_alphanumeric() || b == b'-').to_vec())
            }
            _ => Err(self.at),
        }
    }

    fn defined_as(&mut self) -> Result<bool, usize> {
        self.blanks();
        if !self.take(b"=") {
            return Err(self.at);
        }
        let adds = self.take(b"/");
        self.blanks();
        Ok(adds)
    }

    fn elements(&mut self) -> Result<Vec<Vec<Element>>, usize> {
        let mut alternatives = vec![self.concatenation()?];
        loop {
            self.blanks();
            if !self.take(b"/") {
                return Ok(alternatives);
            }
            self.blanks();
            alternatives.push(self.concatenation()?);
        }
    }

    fn concatenation(&mut self) -> Result<Vec<Element>, usize> {
        let mut elements = vec![self.element()?];
        loop {
            let before = self.at;
            let apart = self.blanks() > 0;
            let begins = matches!(self.next(), Some(b) if b.is_ascii_alphabetic() || b == b'"' || b == b'%');
            if !(apart && begins) {
                self.at = before;
                return Ok(elements);
            }
            elements.push(self.element()?);
        }
    }

    /// An element; one that is not whole is refused where it begins.
    fn element(&mut self) -> Result<Element, usize> {
        let begun = self.at;
        match self.next() {
            Some(b'"') => {
                let string = self.quoted_string().ok_or(begun)?;
                Ok(Element::Characters(string.iter().map(|&b| (b, true)).collect()))
            }
            Some(b'%') => {
                self.at += 1;
                self.prefixed().map(Element::Characters).ok_or(begun)
            }
            _ => self.rulename().map(Element::Name),
        }
    }

    fn quoted_string(&mut self) -> Option<&'a [u8]> {
        if !self.take(b"\"") {
            return None;
        }
        let string = self.take_while(|b| matches!(b, 0x20..=0x21 | 0x23..=0x7e));
        self.take(b"\"").then_some(string)
    }

    /// What stands after a percent sign.
    fn prefixed(&mut self) -> Option<Vec<Character>> {
        let letter = self.next()?.to_ascii_lowercase();
        self.at += 1;
        match letter {
            b'x' => self.hex_val(),
            b's' | b'i' if self.newer => {
                let string = self.quoted_string()?;
                Some(string.iter().map(|&b| (b, letter == b'i')).collect())
            }
            _ => None,
        }
    }

    /// Hexadecimal digits, with dots and digits or with a dash and digits after them. The latter is a range, and outside.
    fn hex_val(&mut self) -> Option<Vec<Character>> {
        let mut values = vec![self.number()?];
        if self.goes_on(b'-') {
            return None;
        }
        while self.goes_on(b'.') {
            self.at += 1;
            values.push(self.number()?);
        }
        values.into_iter().map(|value| Some((u8::try_from(value?).ok()?, false))).collect()
    }

    /// Whether a sign and a digit come next.
    fn goes_on(&self, sign: u8) -> bool {
        matches!(self.rest(), [b, digit, ..] if *b == sign && digit.is_ascii_hexdigit())
    }

    /// A number of hexadecimal digits, if there are any; none inside where it has more than 64 bits.
    fn number(&mut self) -> Option<Option<u64>> {
        let digits = self.take_while(|b| b.is_ascii_hexdigit());
        if digits.is_empty() {
            return None;
        }
        let digits = std::str::from_utf8(digits).ok()?.trim_start_matches('0');
        Some(if digits.is_empty() { Some(0) } else { u64::from_str_radix(digits, 16).ok() })
    }

    fn line_end(&mut self) -> Result<(), usize> {
        if self.take(b";") {
            self.take_while(|b| b == b'\t' || matches!(b, 0x20..=0x7e));
        }
        if self.take(b"\r\n") {
            Ok(())
        } else {
            Err(self.at)
        }
    }
}
