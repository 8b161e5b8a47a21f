//! The first thing in which two runs differ.
use std::fmt;

/// What differs, and its two values.
#[derive(Clone, Debug, PartialEq, Eq)]
pub struct Difference {
    pub what: String,
    pub plain: String,
    pub shuffled: String,
}

impl fmt::Display for Difference {
    fn fmt(&self, f: &mut fmt::Formatter<'_>) -> fmt::Result {
        write!(f, "{}, {} plain and {} shuffled", self.what, self.plain, self.shuffled)
    }
}

/// An error where two values differ.
pub fn alike<T: PartialEq>(what: &str, plain: T, shuffled: T, show: impl Fn(&T) -> String) -> Result<T, Difference> {
    if plain == shuffled {
        return Ok(plain);
    }
    Err(Difference { what: what.into(), plain: show(&plain), shuffled: show(&shuffled) })
}

/// An error where two lists differ, for the first place where they do.
pub fn all_alike<T: PartialEq>(
    plain: &[T],
    shuffled: &[T],
    what: impl Fn(usize) -> String,
    show: impl Fn(&T) -> String,
) -> Result<(), Difference> {
    let longest = plain.len().max(shuffled.len());
    let Some(at) = (0..longest).find(|at| plain.get(*at) != shuffled.get(*at)) else { return Ok(()) };
    let value = |list: &[T]| list.get(at).map_or_else(|| "none".into(), &show);
    Err(Difference { what: what(at), plain: value(plain), shuffled: value(shuffled) })
}

#[cfg(test)]
mod tests {
    use super::{alike, all_alike};

    #[test]
    fn only_the_first_difference_is_told() {
        let found = all_alike(&[1, 2, 3], &[1, 5, 6], |at| format!("place {at}"), u8::to_string).unwrap_err();
        assert_eq!(found.to_string(), "place 1, 2 plain and 5 shuffled");
        let found = all_alike(&[1], &[1, 5], |at| format!("place {at}"), u8::to_string).unwrap_err();
        assert_eq!(found.to_string(), "place 1, none plain and 5 shuffled");
        assert_eq!(alike("the states", 3, 3, u8::to_string), Ok(3));
        assert!(all_alike(&[1, 2], &[1, 2], |at| format!("place {at}"), u8::to_string).is_ok());
    }
}
