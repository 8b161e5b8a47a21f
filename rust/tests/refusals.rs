//! Refusals by operation: their numbers, places and records, and each message as a whole.
use ropeclover::{Operation, Refusal};

const OPERATIONS: [Operation; 5] =
    [Operation::Table, Operation::Bits, Operation::Binarize, Operation::Clean, Operation::ReadAbnf];

/// Whatever a refusal is called, it keeps its number and its place, and knows its record.
#[test]
fn numbers_and_places_are_kept() {
    for operation in OPERATIONS {
        for (number, place) in
            (1..=19).flat_map(|number| [0, 1, 2, 3, 257, 16_388, 49_164].map(|place| (number, place)))
        {
            let refusal = Refusal::of(operation, number, place);
            assert_eq!((refusal.number(), refusal.place()), (number, place), "{refusal:?}");
            let is_of_a_record = matches!(number, 3..=7 | 14 | 15) && (number, operation) != (7, Operation::ReadAbnf);
            assert_eq!(refusal.record(), is_of_a_record.then_some(place as usize), "{refusal:?}");
            let is_named = match number {
                10 => (1..=3).contains(&place),
                18 => (1..=2).contains(&place),
                _ => number < 19,
            };
            assert_eq!(refusal.to_string() == format!("refused by {number} at {place}"), !is_named, "{refusal}");
        }
    }
}

/// A record of a job has four bytes, one of a long job twelve.
#[test]
fn records_have_offsets() {
    for (operation, bytes) in OPERATIONS.into_iter().zip([4, 4, 12, 4]) {
        for number in [3, 4, 5, 6, 7, 14, 15] {
            let place = Refusal::of(operation, number, 9).record_place().unwrap();
            assert_eq!((place.number(), place.record(), place.offset()), (9, 9, 9 * bytes));
        }
    }
}

/// Each message of a call on a table of bytes, and those by which the other operations differ.
#[test]
fn messages() {
    let kinds = "the kinds are E, U, P, T, I, F and S, and L in a long job";
    let classes = "(a variable is 0 to 31, a symbol 0 to 63, a state 0 to 31, an unused field 0)";
    for (operation, number, place, message) in [
        (Operation::Table, 1, 9, "the job's length is not a multiple of 4: bytes are left over after 9 whole records"),
        (Operation::Table, 1, 1, "the job's length is not a multiple of 4: bytes are left over after 1 whole record"),
        (Operation::Table, 2, 16_388, "the job has 16388 bytes; at most 16384 are taken"),
        (Operation::Table, 3, 5, &format!("record 5 has an unknown kind byte; {kinds}")),
        (Operation::Table, 4, 5, &format!("record 5 has a field outside its class {classes}")),
        (Operation::Table, 5, 5, "record 5 repeats an earlier record"),
        (Operation::Table, 6, 5, "record 5 is a second S or a second I record; there is one of each"),
        (Operation::Table, 7, 300, "record 300 is the 257th rule; at most 256 are taken"),
        (Operation::Table, 8, 1, "there is no S record among 1 record: the start symbol is missing"),
        (Operation::Table, 9, 2, "there is no I record among 2 records: the initial state is missing"),
        (Operation::Table, 10, 1, "the lent table has fewer than 65536 bytes"),
        (Operation::Table, 10, 2, "the lent reasons are fewer than 32768 numbers"),
        (Operation::Table, 10, 3, "the lent codes have fewer than 64 bytes"),
        (Operation::Table, 11, 2, "the form's byte at position 2 is over 63, so it is no symbol"),
        (Operation::Table, 12, 65, "the form has 65 symbols; at most 64 are taken"),
        (Operation::Table, 13, 9, "the lent listing is too short: room for 9 records of 8 bytes is needed"),
        (Operation::Bits, 10, 1, "the lent bit table has fewer than 16384 bytes"),
        (
            Operation::Clean,
            13,
            257,
            "the lent buffer is too short for the job written: room for 257 records of 4 bytes is needed",
        ),
        (
            Operation::Binarize,
            1,
            2,
            "the long job's length is not a multiple of 12: bytes are left over after 2 whole records",
        ),
        (Operation::Binarize, 2, 49_153, "the long job has 49153 bytes; at most 49152 are taken"),
        (Operation::Binarize, 2, 16_388, "the job written would have 16388 bytes; at most 16384 are taken"),
        (Operation::Binarize, 5, 7, "record 7 is written as a record that stands already among those written"),
        (Operation::Binarize, 7, 7, "the 257th rule is written for record 7; at most 256 are taken"),
        (
            Operation::Binarize,
            13,
            1,
            "the lent buffer is too short for the job written: room for 1 record of 4 bytes is needed",
        ),
        (
            Operation::Binarize,
            14,
            7,
            "record 7 takes more variables than are free: those of 0 to 31 that no record names",
        ),
        (Operation::Binarize, 15, 7, "record 7 has a length over 8, or a byte past its body or fields that is not 0"),
        (Operation::ReadAbnf, 10, 3, "the lent map has fewer than 32 bytes"),
        (Operation::ReadAbnf, 2, 16_385, "the text has 16385 bytes; at most 16384 are taken"),
        (Operation::ReadAbnf, 16, 7, "the text leaves the part of ABNF that is read at offset 7"),
        (
            Operation::ReadAbnf,
            17,
            7,
            "the name at offset 7 has no rule, or it begins a rule by '=/' with no '=' above, or by '=' with one above",
        ),
        (
            Operation::ReadAbnf,
            18,
            1,
            "the text takes more than 32 variables: one for each name, for each letter of its strings, and for each tail of a body",
        ),
        (
            Operation::ReadAbnf,
            18,
            2,
            "the text uses more than 32 characters, both cases of each letter of its strings included",
        ),
        (Operation::ReadAbnf, 7, 257, "the text gives a 257th rule; at most 256 different ones are taken"),
        (
            Operation::ReadAbnf,
            13,
            9,
            "the lent buffer is too short for the job written: room for 9 records of 4 bytes is needed",
        ),
    ] {
        assert_eq!(Refusal::of(operation, number, place).to_string(), message);
    }
}
