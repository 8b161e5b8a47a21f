//! Speed of reading ABNF text, as ratios in one run: the library against a plain Rust reader, the one written apart that the tests compare it with; and
//! texts of 8 and 16 KiB against as many times one of 4 KiB, of which a time that grows linearly makes 1. Results are checked equal before a time is
//! shown.
#[allow(dead_code)]
#[path = "../tests/support/abnf.rs"]
mod abnf;
#[allow(dead_code)]
#[path = "../tests/support/read_abnf.rs"]
mod read_abnf;
#[path = "support/texts.rs"]
mod texts;
#[path = "support/timing.rs"]
mod timing;

use ropeclover::{TextRead, COPY_BYTES, MAP_BYTES};
use std::hint::black_box;
use std::time::Duration;
use timing::{row, time};

/// A map and a buffer that are long enough.
type Buffers = ([u8; MAP_BYTES], [u8; COPY_BYTES]);

fn library(text: &[u8], (map, job): &mut Buffers) -> [u64; 4] {
    match ropeclover::read_abnf(text, map, job) {
        Ok(TextRead { records, characters }) => [0, 0, records as u64, characters as u64],
        Err(refusal) => [refusal.number(), refusal.place(), 0, 0],
    }
}

/// Measures both readers on a text, and gives the library's time.
fn bench(name: &str, text: &[u8]) -> Duration {
    let (mut lent, mut other_lent): (Buffers, Buffers) =
        (([7; MAP_BYTES], [7; COPY_BYTES]), ([7; MAP_BYTES], [7; COPY_BYTES]));
    let (found, taken) = time(|| library(black_box(text), &mut lent));
    let (expected, other) = time(|| read_abnf::read_abnf(black_box(text), &mut other_lent.0, &mut other_lent.1));
    assert_eq!(found, expected, "the two readers differ");
    assert!(lent == other_lent, "the two readers leave different memory");
    let [number, place, records, characters] = found;
    match number {
        0 => println!("{name}: {} bytes, {records} records, {characters} characters", text.len()),
        _ => println!("{name}: {} bytes, refused {number} at {place}", text.len()),
    }
    row("read", taken, Some(("plain reader", other)));
    taken
}

/// The same kind of text in three lengths.
fn bench_growth(name: &str, text: fn(usize) -> Vec<u8>) {
    const SHORTEST: usize = 4_096;
    let shortest = bench(name, &text(SHORTEST));
    for times in [2, 4] {
        let taken = bench(name, &text(times * SHORTEST));
        row("grows", taken, Some((&format!("{times} times {SHORTEST} bytes"), shortest * times as u32)));
    }
}

fn main() {
    // `cargo test --benches` and the like pass flags; only a plain run measures.
    if std::env::args().any(|word| word == "--test") {
        return;
    }
    bench("twenty short rules", texts::COMMANDS.as_bytes());
    bench_growth("many alternatives", texts::alternatives);
    bench_growth("many names", texts::names);
    bench_growth("many names, the last without a rule", texts::name_without_rule);
}
