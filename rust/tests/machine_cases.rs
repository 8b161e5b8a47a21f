//! Start and advance on jobs worked by hand, step by step, and on tables that no start wrote.
use ropeclover::{advance, start, text::assemble, Operation, Refusal, Workspace};

const REPORT: &str = "S 0\nU 0 32\nP 0 1 1\nP 1 0 1\nU 1 33\nI 0\nF 2\nT 0 32 1\nT 1 33 2\nT 2 32 1\n";

fn done(table: &[u8]) -> usize {
    table.iter().filter(|byte| matches!(byte, 2 | 3)).count()
}

/// The order by hand: at each step the lowest pending place q·2048 + X·32 + r is taken. Beside each transition the rise in
/// pair meetings.
const STEPS: [((usize, usize, usize), u64); 11] = [
    ((0, 32, 1), 0),
    ((0, 0, 1), 0),
    ((1, 33, 2), 0),
    ((1, 1, 2), 1), // with (0, 0, 1), for 1 -> 0 1
    ((0, 1, 2), 0),
    ((2, 32, 1), 0),
    ((2, 0, 1), 1), // with (1, 1, 2)
    ((2, 1, 2), 3), // with (0, 1, 2), (1, 1, 2) and itself, for 0 -> 1 1
    ((0, 0, 2), 1), // with (2, 1, 2)
    ((1, 0, 2), 1),
    ((2, 0, 2), 1),
];

#[test]
fn the_report_step_by_step() {
    let job = assemble(REPORT).unwrap();
    let mut workspace = Workspace::new();
    let mut started = workspace.start(&job).unwrap();
    assert_eq!(started.states(), 3);
    for (number, ((q, x, r), rise)) in STEPS.iter().enumerate() {
        assert_eq!(started.memory().table()[q * 2048 + x * 32 + r], 1, "step {number}");
        let advanced = started.advance(1);
        assert_eq!((advanced.steps, advanced.meetings), (1, *rise), "step {number}");
        assert_eq!(advanced.finished, number == 10, "step {number}");
        assert_eq!(started.memory().table()[q * 2048 + x * 32 + r], 2, "step {number}");
        assert_eq!(done(started.memory().table()), number + 1);
        // The same in one go from a fresh start.
        let mut fresh = Workspace::new();
        let mut fresh = fresh.start(&job).unwrap();
        let prefix = fresh.advance(number as u64 + 1);
        assert_eq!(prefix.steps, number as u64 + 1);
        assert_eq!(prefix.meetings, STEPS[..=number].iter().map(|step| step.1).sum::<u64>());
        assert!(fresh.memory() == started.memory());
    }
    let more = started.advance(u64::MAX);
    assert_eq!((more.finished, more.steps, more.meetings), (true, 0, 0));
    // Reasons: given ones have none in this table of variables; (0, 1, 2) came by rule 2 (P 1 0 1) with middle 1 in step 4, (0, 0, 2) in step 8.
    assert_eq!(workspace.reasons()[32 + 2], 1 + 32 * 2 + 1 + 65_536 * 4);
    assert_eq!(workspace.reasons()[2], 1 + 2 + 65_536 * 8);
}

/// The number of states of a job whose records stand in this order, and of the same in the opposite order.
fn states(job: &[u8]) -> usize {
    let (mut workspace, mut other) = (Workspace::new(), Workspace::new());
    let turned: Vec<u8> = job.chunks(4).rev().flatten().copied().collect();
    let found = workspace.start(job).unwrap().states();
    assert_eq!(other.start(&turned).unwrap().states(), found);
    found
}

/// One more than the largest state, whichever record names it; heads, labels and start symbols are no states.
#[test]
fn the_number_of_states() {
    let cases = [
        ("S 0\nI 0\n", 1),
        ("S 0\nI 31\n", 32),
        ("S 0\nI 2\nF 9\n", 10),
        ("S 0\nF 4\nI 6\nF 5\n", 7),
        ("S 0\nI 0\nF 3\nT 7 32 2\nT 6 32 6\n", 8),
        ("S 0\nI 0\nF 3\nT 2 32 7\nT 6 32 6\n", 8),
        ("S 0\nI 0\nT 1 63 0\nT 0 31 1\n", 2),
        ("S 31\nI 1\nE 30\nU 29 63\nP 28 27 62\n", 2),
    ];
    for (text, expected) in cases {
        assert_eq!(states(&assemble(text).unwrap()), expected, "{text}");
    }
    // As many records as a job may have, of which one alone names the state 17; the others stay below 9.
    for place in [0, 1, 2_047, 4_094, 4_095] {
        let small = (0..64).flat_map(|x| (0..81).map(move |qr| [b'T', qr / 9, x, qr % 9]));
        let mut records: Vec<[u8; 4]> =
            [[b'S', 0, 0, 0], [b'I', 0, 0, 0]].into_iter().chain(small).take(4_095).collect();
        assert_eq!(states(&records.concat()), 9);
        for large in [[b'T', 17, 40, 3], [b'T', 3, 40, 17], [b'F', 17, 0, 0]] {
            records.insert(place, large);
            assert_eq!(states(&records.concat()), 18, "{large:?} as record {place}");
            records.remove(place);
        }
    }
}

/// A table full of one byte: with 1 everything is taken, with 2 and 3 nothing is left to do, 255 is absent.
#[test]
fn tables_full_of_one_byte() {
    let job = assemble("S 0\nE 0\nP 0 0 0\nI 0\nF 0\n").unwrap();
    for (byte, steps) in [(0, 0), (1, 65_536), (2, 0), (3, 0), (255, 0)] {
        let mut table = vec![byte; 65_536];
        let mut reasons = vec![5; 32_768];
        let advanced = advance(&job, &mut table, &mut reasons, u64::MAX).unwrap();
        assert_eq!((advanced.finished, advanced.steps), (true, steps), "byte {byte}");
        // 0 -> 0 0 meets at every three states once all transitions of 0 are done by these steps.
        assert_eq!(advanced.meetings, if byte == 1 { 32 * 32 * 32 } else { 0 });
        let after = if byte == 1 { 2 } else { byte };
        assert!(table.iter().all(|b| *b == after) && reasons.iter().all(|r| *r == 5));
    }
    // A pending place beside absent bytes 255: its consequent becomes pending, with its reason, and one place is done then.
    let job = assemble("S 0\nU 0 32\nI 0\n").unwrap();
    let mut table = vec![255; 65_536];
    let mut reasons = vec![5; 32_768];
    table[32 * 32 + 7] = 1;
    let advanced = advance(&job, &mut table, &mut reasons, 1).unwrap();
    assert_eq!((advanced.finished, advanced.steps), (false, 1));
    assert_eq!((table[32 * 32 + 7], table[7], reasons[7], table[8]), (2, 1, 1 + 65_536, 255));
}

#[test]
fn short_buffers_are_left_alone() {
    let job = assemble(REPORT).unwrap();
    for (bytes, numbers, place) in [(65_535, 32_768, 1), (0, 0, 1), (65_536, 32_767, 2), (65_536, 0, 2)] {
        let (mut table, mut reasons) = (vec![9; bytes], vec![9; numbers]);
        let refusal = Refusal::of(Operation::Table, 10, place);
        assert_eq!(start(&job, &mut table, &mut reasons), Err(refusal));
        assert_eq!(advance(&job, &mut table, &mut reasons, 3), Err(refusal));
        // Row 10 comes before a job that is wrong too.
        assert_eq!(start(&job[..3], &mut table, &mut reasons), Err(refusal));
        assert!(table.iter().all(|b| *b == 9) && reasons.iter().all(|r| *r == 9));
    }
    let (mut table, mut reasons) = (vec![9; 65_540], vec![9; 32_770]);
    assert_eq!(start(&job, &mut table, &mut reasons), Ok(3));
    assert!(table[65_536..].iter().all(|b| *b == 9) && reasons[32_768..].iter().all(|r| *r == 9));
}
