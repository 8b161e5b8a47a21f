//! The exports of the library, as include/ropeclover.h declares them: each is called with slices, and gives the numbers that it answers.

/// Declares an export and makes a function that calls it, an argument at a time. A slice is passed as its pointer and its length.
macro_rules! export {
    ($name:ident, $answers:literal, [$($taken:tt)*], [$($declared:tt)*], [$($passed:tt)*], $argument:ident: bytes, $($rest:tt)*) => {
        export! {
            $name, $answers, [$($taken)* $argument: &[u8],], [$($declared)* _: *const u8, _: usize,],
            [$($passed)* $argument.as_ptr(), $argument.len(),], $($rest)*
        }
    };
    ($name:ident, $answers:literal, [$($taken:tt)*], [$($declared:tt)*], [$($passed:tt)*], $argument:ident: bytes_mut, $($rest:tt)*) => {
        export! {
            $name, $answers, [$($taken)* $argument: &mut [u8],], [$($declared)* _: *mut u8, _: usize,],
            [$($passed)* $argument.as_mut_ptr(), $argument.len(),], $($rest)*
        }
    };
    ($name:ident, $answers:literal, [$($taken:tt)*], [$($declared:tt)*], [$($passed:tt)*], $argument:ident: entries_mut, $($rest:tt)*) => {
        export! {
            $name, $answers, [$($taken)* $argument: &mut [u32],], [$($declared)* _: *mut u32, _: usize,],
            [$($passed)* $argument.as_mut_ptr(), $argument.len(),], $($rest)*
        }
    };
    ($name:ident, $answers:literal, [$($taken:tt)*], [$($declared:tt)*], [$($passed:tt)*], $argument:ident: count, $($rest:tt)*) => {
        export! {
            $name, $answers, [$($taken)* $argument: u64,], [$($declared)* _: u64,], [$($passed)* $argument,], $($rest)*
        }
    };
    ($name:ident, $answers:literal, [$($taken:tt)*], [$($declared:tt)*], [$($passed:tt)*],) => {
        pub fn $name($($taken)*) -> [u64; $answers] {
            extern "C" {
                fn $name($($declared)* answer: *mut u64);
            }
            let mut answer = [0; $answers];
            // SAFETY: each pointer comes with its slice's length, those that are written through are borrowed mutably and so stand apart from all
            // others, and `answer` has as many numbers as the header says are written.
            unsafe { $name($($passed)* answer.as_mut_ptr()) };
            answer
        }
    };
}

/// The exports, each with its arguments and how many numbers it answers.
macro_rules! exports {
    ($(fn $name:ident($($argument:ident: $kind:ident),*) -> $answers:literal;)*) => {
        $(export! { $name, $answers, [], [], [], $($argument: $kind,)* })*
    };
}

exports! {
    fn ropeclover_start(job: bytes, table: bytes_mut, reasons: entries_mut) -> 3;
    fn ropeclover_advance(job: bytes, table: bytes_mut, reasons: entries_mut, n: count) -> 5;
    fn ropeclover_ask(job: bytes, table: bytes, form: bytes) -> 3;
    fn ropeclover_explain(job: bytes, table: bytes_mut, reasons: entries_mut, form: bytes, listing: bytes_mut) -> 4;
    fn ropeclover_verdicts(job: bytes, table: bytes_mut, codes: bytes_mut) -> 4;
    fn ropeclover_start_bits(job: bytes, bits: bytes_mut, reasons: entries_mut) -> 3;
    fn ropeclover_advance_bits(job: bytes, bits: bytes_mut, reasons: entries_mut, n: count) -> 5;
    fn ropeclover_ask_bits(job: bytes, bits: bytes, form: bytes) -> 3;
    fn ropeclover_done_count(bits: bytes) -> 3;
    fn ropeclover_binarize(long: bytes, job: bytes_mut) -> 3;
    fn ropeclover_clean(job: bytes, out: bytes_mut) -> 3;
    fn ropeclover_read_abnf(text: bytes, map: bytes_mut, job: bytes_mut) -> 4;
    fn ropeclover_show(job: bytes) -> 2;
}
