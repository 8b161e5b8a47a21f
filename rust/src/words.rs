//! Refusals in words without their places, as the C header has them.

/// A refusal in words, without its place; `accepted` for 0. [`Refusal`](crate::Refusal) says more, as it knows the place and the operation.
///
/// ```
/// assert_eq!(ropeclover::refusal_text(8), "there is no S record");
/// ```
pub fn refusal_text(number: u64) -> &'static str {
    match number {
        0 => "accepted",
        1 => "the length is no whole number of records",
        2 => "the job or the text has too many bytes",
        3 => "a record has an unknown kind letter",
        4 => "a field is outside its class",
        5 => "a record stands twice",
        6 => "there is a second S or a second I record",
        7 => "there are too many rules",
        8 => "there is no S record",
        9 => "there is no I record",
        10 => "a lent buffer is too short",
        11 => "a byte of the form is no symbol",
        12 => "the form has too many symbols",
        13 => "the buffer that is written to is too short",
        14 => "a long rule takes more variables than are free",
        15 => "a record of a long job is not padded by zeros",
        16 => "the text leaves the part of ABNF that is read",
        17 => "a name has no rule, or a rule has the wrong one of '=' and '=/'",
        18 => "the text takes too many variables or characters",
        _ => "an unknown refusal",
    }
}
