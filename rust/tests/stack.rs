//! The stack that a call needs: every call is made in a thread with the 128 KiB that the header promises to be enough, its own start included.
mod support;

use ropeclover::{advance, ask, binarize, bits, clean, explain, read_abnf, show_refused, start, verdicts};
use ropeclover::{ABNF_BYTES, BIT_TABLE_BYTES, COPY_BYTES, MAP_BYTES, REASONS, TABLE_BYTES};
use support::jobs::{chain_of_reasons, most_records};

/// Runs some calls in a thread with 128 KiB of stack. One that takes more ends the process.
fn within_the_promise(calls: impl FnOnce() + Send + 'static) {
    std::thread::Builder::new().stack_size(128 * 1024).spawn(calls).unwrap().join().unwrap();
}

/// The calls on a table of bytes, to the end: a listing of over 20,000 records goes down as deep as it is long.
#[test]
fn calls_on_bytes() {
    let job = chain_of_reasons();
    let (mut table, mut reasons) = (vec![0; TABLE_BYTES], vec![0; REASONS]);
    let (mut listing, mut codes) = (vec![0; 8 * 65_536], vec![0; 64]);
    within_the_promise(move || {
        start(&job, &mut table, &mut reasons).unwrap();
        assert!(advance(&job, &mut table, &mut reasons, u64::MAX).unwrap().finished);
        assert!(ask(&job, &table, &[26]).unwrap());
        assert!(explain(&job, &mut table, &mut reasons, &[26], &mut listing).unwrap().records > 20_000);
        verdicts(&job, &mut table, &mut codes).unwrap();
        assert!(show_refused(&job).is_empty());
    });
}

#[test]
fn calls_on_bits() {
    let job = chain_of_reasons();
    let (mut bits, mut reasons) = (vec![0; BIT_TABLE_BYTES], vec![0; REASONS]);
    within_the_promise(move || {
        bits::start(&job, &mut bits, &mut reasons).unwrap();
        let advanced = bits::advance(&job, &mut bits, &mut reasons, u64::MAX).unwrap();
        assert!(advanced.finished && bits::ask(&job, &bits, &[26]).unwrap());
        assert_eq!(bits::done_count(&bits), Ok(advanced.steps));
    });
}

/// The calls that write a job, on as many records as there may be.
#[test]
fn calls_that_write_a_job() {
    let job = most_records();
    let long: Vec<u8> = job.chunks(4).flat_map(|r| ropeclover::long::padded([r[0], r[1], r[2], r[3]])).collect();
    let (mut written, mut copy) = (vec![0; 16_384], vec![0; 1_028]);
    within_the_promise(move || {
        assert_eq!(binarize(&long, &mut written), Ok(4_096));
        assert_eq!(written, job);
        assert_eq!(clean(&job, &mut copy), Ok(1));
    });
}

/// Texts as long as they may be: one with as many rules as a job may have, over and over; one with as many names as it has lines.
#[test]
fn calls_that_read_a_text() {
    let pairs = (0..).map(|n| format!("a{}%xF{:X}.F{:X}\r\n", if n == 0 { "=" } else { "=/" }, n / 16 % 16, n % 16));
    let names = (0..).map(|n| format!("n{n}=n{}\r\n", n / 2));
    let filled = |lines: Vec<String>| {
        let (mut text, mut lines) = (String::new(), lines.into_iter());
        while let Some(line) = lines.next().filter(|line| text.len() + line.len() < ABNF_BYTES) {
            text += &line;
        }
        text.insert_str(text.len() - 2, &(String::from(";") + &"-".repeat(ABNF_BYTES - text.len() - 1)));
        text.into_bytes()
    };
    let (accepted, refused) = (filled(pairs.take(3_000).collect()), filled(names.take(3_000).collect()));
    assert_eq!((accepted.len(), refused.len()), (ABNF_BYTES, ABNF_BYTES));
    let (mut map, mut job) = (vec![0; MAP_BYTES], vec![0; COPY_BYTES]);
    within_the_promise(move || {
        assert_eq!(read_abnf(&accepted, &mut map, &mut job).unwrap().records, 257);
        assert_eq!(read_abnf(&refused, &mut map, &mut job).unwrap_err().number(), 18);
    });
}
