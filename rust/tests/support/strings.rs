//! The strings of a grammar up to a length, all of them: sets of strings that grow by the productions until nothing is new.
use super::productions::Production;
use std::collections::BTreeSet;

pub type Strings = BTreeSet<Vec<u8>>;

/// The strings of a body up to a length, by those of its symbols.
fn of_body(strings: &[Strings], body: &[u8], longest: usize) -> Strings {
    let mut joined = Strings::from([vec![]]);
    for symbol in body {
        let next = &strings[usize::from(*symbol)];
        let fits = |first: &[u8], second: &[u8]| first.len() + second.len() <= longest;
        let pairs = joined.iter().flat_map(|first| next.iter().map(move |second| (first, second)));
        joined =
            pairs.filter(|(first, second)| fits(first, second)).map(|pair| [&pair.0[..], pair.1].concat()).collect();
    }
    joined
}

/// The strings of terminals, none longer than that, which a symbol derives.
pub fn derived(productions: &[Production], symbol: u8, longest: usize) -> Strings {
    let mut strings: Vec<Strings> = vec![Strings::new(); 32];
    strings.extend((32..64).map(|terminal| Strings::from([vec![terminal]])));
    loop {
        let mut grown = false;
        for (head, body) in productions {
            let found = of_body(&strings, body, longest);
            let of_head = &mut strings[usize::from(*head)];
            let before = of_head.len();
            of_head.extend(found);
            grown |= of_head.len() > before;
        }
        if !grown {
            return strings.swap_remove(usize::from(symbol));
        }
    }
}
