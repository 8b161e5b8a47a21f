//! Bit tables worked by hand, byte for byte, and refused calls, which leave all lent memory as it was.
use ropeclover::{bits, text::assemble, Buffer, Operation, Refusal};

/// Ranks: 0 -> 1 1 is 0, 0 -> 32 is 1, 1 -> 0 1 is 2, 1 -> 33 is 3.
const REPORT: &str = "S 0\nU 0 32\nP 0 1 1\nP 1 0 1\nU 1 33\nI 0\nF 2\nT 0 32 1\nT 1 33 2\nT 2 32 1\n";

/// Where the done half begins.
const DONE: usize = 8_192;

/// What a turn counts for in an entry of the reasons.
const TURN: u32 = 65_536;

/// A bit table of these bytes, all others 0.
fn table(bytes: &[(usize, u8)]) -> Vec<u8> {
    let mut bits = vec![0; 16_384];
    bytes.iter().for_each(|(at, byte)| bits[*at] = *byte);
    bits
}

/// Reasons of these entries, all others 0.
fn reasons(entries: &[(usize, u32)]) -> Vec<u32> {
    let mut reasons = vec![0; 32_768];
    entries.iter().for_each(|(at, entry)| reasons[*at] = *entry);
    reasons
}

/// Makes at most n steps: finished, steps and meetings.
fn advanced(job: &[u8], bits: &mut [u8], reasons: &mut [u32], n: u64) -> (bool, u64, u64) {
    let advanced = bits::advance(job, bits, reasons, n).unwrap();
    (advanced.finished, advanced.steps, advanced.meetings)
}

/// From a start the turn of what a step adds is that step's number, from 1: as many places are done then.
///
/// The places of the given transitions: (0, 32, 1) has 1025 = 8 · 128 + 1, (1, 33, 2) has 3106 = 8 · 388 + 2, (2, 32, 1) has 5121 = 8 · 640 + 1.
#[test]
fn the_report_byte_by_byte() {
    let job = assemble(REPORT).unwrap();
    let (mut bits, mut found) = (vec![0xff; 16_384], vec![7; 32_768]);
    assert_eq!(bits::start(&job, &mut bits, &mut found), Ok(3));
    assert!(bits == table(&[(128, 0x02), (388, 0x04), (640, 0x02)]) && found == reasons(&[]));
    assert_eq!(bits::done_count(&bits), Ok(0));

    // (0, 32, 1) is taken; (0, 0, 1), of place 1, follows by the rule of rank 1.
    assert_eq!(advanced(&job, &mut bits, &mut found, 1), (false, 1, 0));
    assert!(bits == table(&[(0, 0x02), (388, 0x04), (640, 0x02), (DONE + 128, 0x02)]));
    assert!(found == reasons(&[(1, 33 + TURN)]));

    // (0, 0, 1) is taken, from which nothing follows yet.
    assert_eq!(advanced(&job, &mut bits, &mut found, 1), (false, 1, 0));
    assert!(bits == table(&[(388, 0x04), (640, 0x02), (DONE, 0x02), (DONE + 128, 0x02)]));

    // (1, 33, 2) and then (1, 1, 2), of place 2082 = 8 · 260 + 2, are taken. The second and (0, 0, 1) give (0, 1, 2), of place 34 = 8 · 4 + 2, by
    // the rule of rank 2 with the middle 1.
    assert_eq!(advanced(&job, &mut bits, &mut found, 2), (false, 2, 1));
    let done = [(DONE, 0x02), (DONE + 128, 0x02), (DONE + 260, 0x04), (DONE + 388, 0x04)];
    assert!(bits == table(&[&[(4, 0x04), (640, 0x02)], &done[..]].concat()));
    assert!(found == reasons(&[(1, 33 + TURN), (34, 66 + 4 * TURN), (1058, 97 + 3 * TURN)]));
    assert_eq!(bits::done_count(&bits), Ok(4));
    assert_eq!(bits::ask(&job, &bits, &[0, 33]), Ok(true));
    // (0, 1, 2) is pending.
    assert_eq!(bits::ask(&job, &bits, &[1]), Ok(false));

    // The done transitions of variables: (0, 0, 1), (0, 0, 2) and (0, 1, 2); (1, 0, 2) and (1, 1, 2); (2, 0, 1), (2, 0, 2) and (2, 1, 2).
    assert_eq!(advanced(&job, &mut bits, &mut found, u64::MAX), (true, 7, 7));
    let variables = [(0, 0x06), (4, 0x04), (256, 0x04), (260, 0x04), (512, 0x06), (516, 0x04)];
    let given = [(128, 0x02), (388, 0x04), (640, 0x02)];
    let done: Vec<(usize, u8)> = variables.iter().chain(&given).map(|(at, byte)| (DONE + at, *byte)).collect();
    assert!(bits == table(&done));
    assert_eq!(bits::done_count(&bits), Ok(11));
    assert_eq!(bits::ask(&job, &bits, &[0]), Ok(true));
    // Step 6 takes (2, 32, 1) and adds (2, 0, 1), step 7 takes that and adds (2, 1, 2), and step 8 takes that and adds those of 0 to 2.
    let from_0 = [(1, 33 + TURN), (2, 1 + 2 + 8 * TURN), (34, 66 + 4 * TURN)];
    let from_1 = [(1026, 1 + 2 + 8 * TURN), (1058, 97 + 3 * TURN)];
    let from_2 = [(2049, 33 + 6 * TURN), (2050, 1 + 2 + 8 * TURN), (2082, 66 + 7 * TURN)];
    assert!(found == reasons(&[&from_0[..], &from_1[..], &from_2[..]].concat()));

    assert_eq!(advanced(&job, &mut bits, &mut found, 5), (true, 0, 0));
}

/// The first place, the last place of the first byte, and the last of all: place 65535 is bit 7 of byte 8191.
#[test]
fn places_at_the_ends() {
    let job = assemble("S 0\nI 0\nF 31\nT 0 0 0\nT 0 0 7\nT 0 0 8\nT 31 63 31\n").unwrap();
    let (mut bits, mut found) = (vec![0; 16_384], vec![0; 32_768]);
    assert_eq!(bits::start(&job, &mut bits, &mut found), Ok(32));
    assert!(bits == table(&[(0, 0x81), (1, 0x01), (8_191, 0x80)]));
    assert!(found == reasons(&[(0, 65_535), (7, 65_535), (8, 65_535)]));
    assert_eq!(advanced(&job, &mut bits, &mut found, 1), (false, 1, 0));
    assert!(bits == table(&[(0, 0x80), (1, 0x01), (8_191, 0x80), (DONE, 0x01)]));
    assert_eq!(advanced(&job, &mut bits, &mut found, 2), (false, 2, 0));
    assert!(bits == table(&[(8_191, 0x80), (DONE, 0x81), (DONE + 1, 0x01)]));
    assert_eq!(advanced(&job, &mut bits, &mut found, 2), (true, 1, 0));
    assert!(bits == table(&[(DONE, 0x81), (DONE + 1, 0x01), (16_383, 0x80)]));
    assert_eq!(bits::done_count(&bits), Ok(4));
}

/// A place with both bits: never taken, kept, no hindrance to being finished, and done for whatever it leads to.
#[test]
fn both_bits() {
    // Rank 0 is 0 -> 32 33, rank 1 is 1 -> 32. (0, 32, 1) has place 1025, (1, 33, 2) 3106.
    let job = assemble("S 0\nP 0 32 33\nU 1 32\nI 0\nF 2\n").unwrap();
    let both = [(128, 0x02), (388, 0x04), (DONE + 128, 0x02), (DONE + 388, 0x04)];
    let (mut bits, mut found) = (table(&both), vec![9; 32_768]);
    for n in [0, 1, u64::MAX] {
        assert_eq!(advanced(&job, &mut bits, &mut found, n), (true, 0, 0));
        assert!(bits == table(&both) && found.iter().all(|number| *number == 9));
    }
    assert_eq!(bits::done_count(&bits), Ok(2));
    assert_eq!(bits::ask(&job, &bits, &[32, 33]), Ok(true));

    // (1, 33, 2) is only pending now: it meets (0, 32, 1), which has both bits, and (0, 0, 2), of place 2, follows with the middle 1.
    let (mut bits, mut found) = (table(&both[..3]), vec![9; 32_768]);
    assert_eq!(bits::ask(&job, &bits, &[32, 33]), Ok(false));
    assert_eq!(advanced(&job, &mut bits, &mut found, 1), (false, 1, 1));
    assert!(bits == table(&[(0, 0x04), (128, 0x02), (DONE + 128, 0x02), (DONE + 388, 0x04)]));
    // Two places are done then, the one with both bits among them.
    assert_eq!((found[2], found.iter().filter(|number| **number == 9).count()), (2 + 2 * TURN, 32_767));

    // (0, 32, 1) is only pending: what follows from it, (0, 1, 1) of place 33 = 8 · 4 + 1 and (0, 0, 2), has both bits and stays, reasons too.
    let kept = [(0, 0x04), (4, 0x02), (DONE, 0x04), (DONE + 4, 0x02), (DONE + 388, 0x04)];
    let (mut bits, mut found) = (table(&[&kept[..], &[(128, 0x02)]].concat()), vec![9; 32_768]);
    assert_eq!(advanced(&job, &mut bits, &mut found, u64::MAX), (true, 1, 1));
    assert!(bits == table(&[&kept[..], &[(DONE + 128, 0x02)]].concat()));
    assert!(found.iter().all(|number| *number == 9));
    assert_eq!(bits::done_count(&bits), Ok(4));
}

/// Tables of one byte in each half. 0 -> 0 0 meets at every three states once all transitions of 0 are done.
#[test]
fn tables_full_of_one_byte() {
    let job = assemble("S 0\nE 0\nP 0 0 0\nI 0\nF 0\n").unwrap();
    for (pending, done, steps, meetings) in
        [(0, 0, 0, 0), (0xff, 0, 65_536, 32 * 32 * 32), (0, 0xff, 0, 0), (0xff, 0xff, 0, 0), (0xaa, 0xff, 0, 0)]
    {
        let (mut bits, mut found) = ([[pending; DONE], [done; DONE]].concat(), vec![5; 32_768]);
        assert_eq!(bits::done_count(&bits), Ok(8_192 * u64::from(u8::count_ones(done))));
        assert_eq!(advanced(&job, &mut bits, &mut found, u64::MAX), (true, steps, meetings));
        let left = if steps == 0 { [pending, done] } else { [0, 0xff] };
        assert!(bits == [[left[0]; DONE], [left[1]; DONE]].concat() && found.iter().all(|number| *number == 5));
    }
}

/// Memory of these lengths that no call would leave as it is.
fn lent(bytes: usize, numbers: usize) -> (Vec<u8>, Vec<u32>) {
    ((0..bytes).map(|at| (at % 251) as u8).collect(), (0..numbers).map(|at| at as u32 ^ 0x5555_5555).collect())
}

/// Start and advance on memory of these lengths are refused by this number and place, and leave it as it was.
fn refuses(job: &[u8], (bytes, numbers): (usize, usize), (number, place): (u64, u64)) {
    let (before, reasons_before) = lent(bytes, numbers);
    let (mut bits, mut reasons) = lent(bytes, numbers);
    let refusal = Refusal::of(Operation::Bits, number, place);
    assert_eq!(bits::start(job, &mut bits, &mut reasons), Err(refusal));
    assert!(bits == before && reasons == reasons_before, "start writes though it is refused by {refusal:?}");
    for n in [0, 1, u64::MAX] {
        assert_eq!(bits::advance(job, &mut bits, &mut reasons, n), Err(refusal));
        assert!(bits == before && reasons == reasons_before, "advance writes though it is refused by {refusal:?}");
    }
}

/// Short buffers come before all else that is wrong, the bit table before the reasons.
#[test]
fn short_buffers() {
    let good = assemble(REPORT).unwrap();
    for bytes in [0, 1, 8_191, 8_192, 8_193, 16_380, 16_383] {
        let (bits, _) = lent(bytes, 0);
        let refusal = Refusal::ShortBuffer(Buffer::Bits);
        for job in [&good[..], &good[..3], &[]] {
            for numbers in [0, 32_767, 32_768, 40_000] {
                refuses(job, (bytes, numbers), (10, 1));
            }
            for form in [&[0][..], &[64], &[0; 65]] {
                assert_eq!(bits::ask(job, &bits, form), Err(refusal));
            }
        }
        assert_eq!(bits::done_count(&bits), Err(refusal));
        assert_eq!((refusal.number(), refusal.place()), (10, 1));
        assert_eq!(refusal.to_string(), "the lent bit table has fewer than 16384 bytes");
    }
    for numbers in [0, 1, 16_384, 32_767] {
        for job in [&good[..], &good[..3], &[]] {
            refuses(job, (16_384, numbers), (10, 2));
            refuses(job, (65_536, numbers), (10, 2));
        }
    }
}

/// Each refusal of a job, in its turn: after the buffers, before the form.
#[test]
fn refused_jobs() {
    let many_rules: String = (0..257).map(|i| format!("P {} {} 0\n", i / 32, i % 32)).collect();
    let jobs = [
        (vec![b'T'; 16_388], (2, 16_388)),
        (vec![b'T'; 16_385], (2, 16_385)),
        (vec![b'S', 0, 0], (1, 0)),
        (assemble(REPORT).unwrap()[..39].to_vec(), (1, 9)),
        (b"S\0\0\0Q\0\0\0".to_vec(), (3, 1)),
        (b"S\0\0\0P\0\0\x40".to_vec(), (4, 1)),
        (b"I\0\0\0S\0\0\0S\0\0\0".to_vec(), (5, 2)),
        (b"I\0\0\0S\0\0\0S\x01\0\0".to_vec(), (6, 2)),
        (assemble(&format!("S 0\nI 0\n{many_rules}")).unwrap(), (7, 258)),
        (vec![], (8, 0)),
        (b"I\0\0\0".to_vec(), (8, 1)),
        (b"S\0\0\0F\0\0\0".to_vec(), (9, 2)),
    ];
    for (job, (number, place)) in jobs {
        refuses(&job, (16_384, 32_768), (number, place));
        refuses(&job, (16_400, 32_800), (number, place));
        for form in [&[][..], &[64], &[0; 65]] {
            assert_eq!(bits::ask(&job, &lent(16_384, 0).0, form), Err(Refusal::of(Operation::Table, number, place)));
        }
    }
}

#[test]
fn refused_forms() {
    let job = assemble(REPORT).unwrap();
    let (bits, _) = lent(16_384, 0);
    assert!(bits::ask(&job, &bits, &[63; 64]).is_ok());
    assert_eq!(bits::ask(&job, &bits, &[0; 65]), Err(Refusal::of(Operation::Table, 12, 65)));
    // 12 comes before 11, and 11 gives the first place.
    assert_eq!(bits::ask(&job, &bits, &[64; 65]), Err(Refusal::of(Operation::Table, 12, 65)));
    assert_eq!(bits::ask(&job, &bits, &[63, 64, 255]), Err(Refusal::of(Operation::Table, 11, 1)));
}

/// Longer buffers are taken, and past the ends nothing is written or read.
#[test]
fn longer_buffers() {
    let job = assemble(REPORT).unwrap();
    for (bytes, numbers) in [(16_384, 32_768), (16_385, 32_769), (16_640, 33_000), (65_536, 65_536)] {
        let (before, reasons_before) = lent(bytes, numbers);
        let (mut bits, mut found) = lent(bytes, numbers);
        assert_eq!(bits::start(&job, &mut bits, &mut found), Ok(3));
        assert!(bits[..16_384] == table(&[(128, 0x02), (388, 0x04), (640, 0x02)]));
        assert_eq!(advanced(&job, &mut bits, &mut found, u64::MAX), (true, 11, 8));
        assert_eq!((bits::done_count(&bits), bits::ask(&job, &bits, &[0])), (Ok(11), Ok(true)));
        assert!(bits[16_384..] == before[16_384..] && found[32_768..] == reasons_before[32_768..]);
    }
}
