//! Names of symbols and states.
use super::words::is_name;
use crate::format::Class;
use crate::long::Tail;
use std::borrow::Cow;

/// The names that a text gives to symbols and states, spelled as in the text.
///
/// ```
/// let text = ropeclover::text::read("name 3 memory\nname 36 \"S\"\nstate 0 idle\n").unwrap();
/// assert_eq!(text.names.symbol(3), "memory");
/// assert_eq!(text.names.symbol(36), "\"S\"");
/// assert_eq!(text.names.symbol(4), "4");
/// assert_eq!(text.names.state(0), "idle");
/// ```
#[derive(Clone, Debug, Default, PartialEq, Eq)]
pub struct Names {
    symbols: Vec<(u8, String)>,
    states: Vec<(u8, String)>,
}

fn find(names: &[(u8, String)], word: &str) -> Option<u8> {
    names.iter().find(|(_, name)| name == word).map(|(number, _)| *number)
}

fn name(names: &[(u8, String)], number: u8) -> Option<&str> {
    names.iter().find(|(other, _)| *other == number).map(|(_, name)| name.as_str())
}

fn spelled(names: &[(u8, String)], number: u8) -> Cow<'_, str> {
    name(names, number).map_or_else(|| Cow::Owned(number.to_string()), Cow::Borrowed)
}

/// The name of a tail, by its head's. What stands behind a name in quotes stands before the closing one.
fn tail_name(head: &str, tail: &Tail) -> String {
    let (head, quote) = head.strip_suffix('"').map_or((head, ""), |open| (open, "\""));
    let rule = if tail.rule > 1 { format!(".{}", tail.rule) } else { String::new() };
    format!("{head}{rule}.{}{quote}", tail.from)
}

impl Names {
    /// A symbol's name, its number where it has none.
    ///
    /// ```
    /// assert_eq!(ropeclover::text::Names::default().symbol(3), "3");
    /// ```
    pub fn symbol(&self, symbol: u8) -> Cow<'_, str> {
        spelled(&self.symbols, symbol)
    }

    /// A state's name, its number where it has none.
    ///
    /// ```
    /// assert_eq!(ropeclover::text::Names::default().state(3), "3");
    /// ```
    pub fn state(&self, state: u8) -> Cow<'_, str> {
        spelled(&self.states, state)
    }

    /// The name that a text gives to a symbol.
    ///
    /// ```
    /// let names = ropeclover::text::read("name 3 memory\n").unwrap().names;
    /// assert_eq!((names.symbol_name(3), names.symbol_name(4)), (Some("memory"), None));
    /// ```
    pub fn symbol_name(&self, symbol: u8) -> Option<&str> {
        name(&self.symbols, symbol)
    }

    /// The name that a text gives to a state.
    ///
    /// ```
    /// let names = ropeclover::text::read("state 3 idle\n").unwrap().names;
    /// assert_eq!((names.state_name(3), names.state_name(4)), (Some("idle"), None));
    /// ```
    pub fn state_name(&self, state: u8) -> Option<&str> {
        name(&self.states, state)
    }

    /// The symbol that a name stands for.
    ///
    /// ```
    /// let names = ropeclover::text::read("name 3 memory\n").unwrap().names;
    /// assert_eq!((names.find_symbol("memory"), names.find_symbol("tone")), (Some(3), None));
    /// ```
    pub fn find_symbol(&self, word: &str) -> Option<u8> {
        find(&self.symbols, word)
    }

    /// The number that a name stands for in a field of a class.
    pub(crate) fn find(&self, word: &str, class: Class) -> Option<u8> {
        match class {
            Class::Variable | Class::Symbol => find(&self.symbols, word),
            Class::State => find(&self.states, word),
            Class::Unused => None,
        }
    }

    /// The symbols that have names, in the order of the text.
    pub(crate) fn named_symbols(&self) -> impl Iterator<Item = (u8, &str)> {
        self.symbols.iter().map(|(symbol, name)| (*symbol, name.as_str()))
    }

    pub(crate) fn name_symbol(&mut self, symbol: u8, name: &str) {
        self.symbols.push((symbol, name.into()));
    }

    pub(crate) fn name_state(&mut self, state: u8, name: &str) {
        self.states.push((state, name.into()));
    }

    /// Names the variables that were taken for long rules by what they stand for: `memory.3` is the end of memory's body from its third symbol on,
    /// `memory.2.3` that of memory's second long rule. The names that a text gave to them are taken away. A variable has no name where the head has
    /// none, or the name is taken.
    ///
    /// ```
    /// use ropeclover::{long, text};
    /// let read = text::read("name 0 memory\nname 2 old\nS memory\nL memory 32 1 33 1\nU 1 34\nI 0\n").unwrap();
    /// let mut names = read.names;
    /// names.name_tails(&long::tails(&read.bytes, &long::binarized(&read.bytes).unwrap()));
    /// assert_eq!((names.symbol(2), names.symbol(3)), ("memory.2".into(), "memory.3".into()));
    /// ```
    pub fn name_tails(&mut self, tails: &[Tail]) {
        self.forget_symbols(&tails.iter().map(|tail| tail.variable).collect::<Vec<u8>>());
        for tail in tails {
            let name = self.symbol_name(tail.head).map(|head| tail_name(head, tail));
            if let Some(name) = name.filter(|name| is_name(name) && self.find_symbol(name).is_none()) {
                self.name_symbol(tail.variable, &name);
            }
        }
    }

    /// Takes away the names of some symbols.
    ///
    /// ```
    /// let mut names = ropeclover::text::read("name 3 memory\nname 4 tone\n").unwrap().names;
    /// names.forget_symbols(&[3]);
    /// assert_eq!((names.symbol(3), names.symbol(4)), ("3".into(), "tone".into()));
    /// ```
    pub fn forget_symbols(&mut self, symbols: &[u8]) {
        self.symbols.retain(|(symbol, _)| !symbols.contains(symbol));
    }
}

/// A decimal number of one byte, digits alone.
pub(crate) fn number(word: &str) -> Option<u8> {
    word.bytes().all(|byte| byte.is_ascii_digit()).then(|| word.parse().ok()).flatten()
}
