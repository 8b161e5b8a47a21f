//! Speed, as ratios in one run: the library against a plain Rust worklist over the same byte table with an index of pending rows, and against
//! gringo and SWI-Prolog where they are installed, which compute the same closure as Datalog; the bit table against the table of bytes and against a
//! plain Rust machine over words; explain by a workspace against the call alone; the count of states by itself against a plain loop. Results are checked
//! equal before a time is shown.
#[path = "support/datalog.rs"]
mod datalog;
#[path = "support/jobs.rs"]
mod jobs;
#[allow(dead_code)]
#[path = "../src/random.rs"]
mod random;
#[path = "support/states.rs"]
mod states;
#[path = "support/timing.rs"]
mod timing;
#[path = "support/words.rs"]
mod words;
#[path = "support/worklist.rs"]
mod worklist;

use ropeclover::{advance, ask, bits, explain, show_refused, start, verdicts};
use ropeclover::{Advanced, Workspace, BIT_TABLE_BYTES, HALF_BYTES, LISTING_BYTES, REASONS, TABLE_BYTES};
use std::hint::black_box;
use std::time::{Duration, Instant};
use timing::{row, time};

// What `./build benchmarks` writes.
#[link(name = "benchmarks", kind = "static")]
extern "C" {
    fn ropeclover_benchmark_state_count(job: *const u8, job_len: usize) -> u64;
}

fn state_count(job: &[u8]) -> u64 {
    // SAFETY: the export reads the bytes of the slice and nothing else.
    unsafe { ropeclover_benchmark_state_count(job.as_ptr(), job.len()) }
}

/// What the table of bytes took and left, for the bit table to be compared with.
struct Bytes {
    found: Advanced,
    table: Vec<u8>,
    reasons: Vec<u32>,
    to_the_end: Duration,
    accepted: bool,
    ask: Duration,
    /// The first step.
    one: Advanced,
    by_one: Duration,
}

/// The form of the start symbol.
fn start_form(job: &[u8]) -> [u8; 1] {
    [job.chunks(4).find(|r| r[0] == b'S').expect("a start symbol")[1]]
}

fn bench(name: &str, job: &[u8]) {
    let (mut table, mut reasons) = (vec![0; TABLE_BYTES], vec![0; REASONS]);
    println!("{name}: {} records", job.len() / 4);
    row("checks alone (show)", time(|| show_refused(job).len()).1, None);
    row("start", time(|| start(job, &mut table, &mut reasons).unwrap()).1, None);
    let (found, taken) = time(|| {
        start(job, &mut table, &mut reasons).unwrap();
        advance(job, &mut table, &mut reasons, u64::MAX).unwrap()
    });
    let (expected, other) = time(|| worklist::saturate(job));
    assert_eq!((found.steps, found.meetings), (expected.examined, expected.joins), "the two saturations differ");
    println!("  examined {} joins {}", found.steps, found.meetings);
    row("start and advance to the end", taken, Some(("worklist", other)));
    for (tool, run) in [("gringo", datalog::gringo as fn(&[u8]) -> Option<u64>), ("swipl", datalog::swipl)] {
        let at = Instant::now();
        if let Some(count) = run(job) {
            assert_eq!(count, found.steps, "{tool} finds another set");
            row(&format!("against {tool}"), taken, Some((tool, at.elapsed())));
        }
    }
    let form = start_form(job);
    let (accepted, asked) = time(|| ask(job, &table, &form).unwrap());
    row("ask on the finished table", asked, None);
    let (finished, finished_reasons) = (table.clone(), reasons.clone());
    start(job, &mut table, &mut reasons).unwrap();
    let one = advance(job, &mut table, &mut reasons, 1).unwrap();
    let by_one = time(|| advance(job, &mut table, &mut reasons, 1).unwrap()).1;
    row("advance by 1", by_one, None);
    bench_explain(job);
    let mut codes = [0; 64];
    row("verdicts", time(|| verdicts(job, &mut table, &mut codes).unwrap()).1, None);
    let bytes = Bytes {
        found,
        table: finished,
        reasons: finished_reasons,
        to_the_end: taken,
        accepted,
        ask: asked,
        one,
        by_one,
    };
    bench_bits(job, &bytes);
}

/// Explain on lent memory, and by a workspace, which also reads the listing and finds the sequence of states.
fn bench_explain(job: &[u8]) {
    let form = start_form(job);
    let (mut table, mut reasons, mut listing) = (vec![0; TABLE_BYTES], vec![0; REASONS], vec![0; LISTING_BYTES]);
    let (explained, taken) = time(|| explain(job, &mut table, &mut reasons, &form, &mut listing).unwrap());
    row("explain", taken, None);
    let mut workspace = Workspace::new();
    let (explanation, by_workspace) = time(|| workspace.explain(job, &form).unwrap());
    let found = (explanation.accepted, explanation.records.len());
    assert_eq!(found, (explained.accepted, explained.records), "the workspace explains another thing");
    assert!(workspace.table() == table && workspace.reasons() == reasons, "the workspace leaves different memory");
    row("explain by a workspace", by_workspace, Some(("the call", taken)));
}

/// Whether a finished bit table says of each place what a finished table of bytes says.
fn says_the_same(bits: &[u8], table: &[u8]) -> bool {
    let has = |half: &[u8], place: usize| half[place / 8] >> (place % 8) & 1 == 1;
    let (pending, done) = bits.split_at(HALF_BYTES);
    let mut places = table.iter().enumerate();
    places.all(|(place, byte)| !has(pending, place) && has(done, place) == (*byte == 2))
}

fn bench_bits(job: &[u8], bytes: &Bytes) {
    let (mut bits, mut reasons) = (vec![0; BIT_TABLE_BYTES], vec![0; REASONS]);
    let (found, taken) = time(|| {
        bits::start(job, &mut bits, &mut reasons).unwrap();
        bits::advance(job, &mut bits, &mut reasons, u64::MAX).unwrap()
    });
    assert_eq!(found, bytes.found, "bits and bytes differ");
    assert!(says_the_same(&bits, &bytes.table) && reasons == bytes.reasons, "bits and bytes leave different memory");
    let (mut other_bits, mut other_reasons) = (Box::new([0; BIT_TABLE_BYTES]), Box::new([0; REASONS]));
    let (expected, other) = time(|| words::saturate(job, &mut other_bits, &mut other_reasons));
    assert_eq!((found.steps, found.meetings), (expected.examined, expected.joins), "the two saturations differ");
    assert!(bits == other_bits[..] && reasons == other_reasons[..], "the two saturations leave different memory");
    row("bits: start and advance to the end", taken, Some(("bytes", bytes.to_the_end)));
    row("bits: start and advance to the end", taken, Some(("words", other)));
    bench_bits_calls(job, bytes, &mut bits, &mut reasons);
}

/// The other calls, on a finished bit table and its reasons.
fn bench_bits_calls(job: &[u8], bytes: &Bytes, bits: &mut [u8], reasons: &mut [u32]) {
    let form = start_form(job);
    let (accepted, asked) = time(|| bits::ask(job, bits, &form).unwrap());
    assert_eq!(accepted, bytes.accepted, "bits and bytes answer differently");
    row("bits: ask on the finished table", asked, Some(("bytes", bytes.ask)));
    let (count, counted) = time(|| bits::done_count(black_box(bits)).unwrap());
    assert_eq!(count, bytes.found.steps, "the done count is not the number of steps");
    row("bits: done count", counted, None);
    bits::start(job, bits, reasons).unwrap();
    assert_eq!(bits::advance(job, bits, reasons, 1), Ok(bytes.one), "the first steps differ");
    let by_one = time(|| bits::advance(job, bits, reasons, 1).unwrap()).1;
    row("bits: advance by 1", by_one, Some(("bytes", bytes.by_one)));
}

/// The count of states by itself, without the checks that start makes before it.
fn bench_state_count(job: &[u8]) {
    println!("state count alone: {} records", job.len() / 4);
    let (found, taken) = time(|| state_count(black_box(job)));
    let (expected, other) = time(|| states::count(black_box(job)));
    assert_eq!(found, expected, "the two counts of states differ");
    row("state count", taken, Some(("plain loop", other)));
}

fn main() {
    // `cargo test --benches` and the like pass flags; only a plain run measures.
    if std::env::args().any(|word| word == "--test") {
        return;
    }
    for (name, job) in jobs::all() {
        bench(name, &job);
    }
    bench_state_count(&jobs::records());
}
