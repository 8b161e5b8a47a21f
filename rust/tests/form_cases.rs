//! Ask and explain on forms of every length, and listings written out by hand from the specification.
use ropeclover::{ask, explain, text::assemble, Operation, Refusal, Workspace};

const REPORT: &str = "S 0\nU 0 32\nP 0 1 1\nP 1 0 1\nU 1 33\nI 0\nF 2\nT 0 32 1\nT 1 33 2\nT 2 32 1\n";

/// By hand: (0, 0, 2) has the reason 0 -> 1 1 with middle 2; its premises (0, 1, 2) and (2, 1, 2) both come by 1 -> 0 1 with middle 1, and
/// share (1, 1, 2), which is listed once.
const LISTING: [[u8; 8]; 9] = [
    [0, 32, 1, b'G', 0, 0, 0, 0],
    [0, 0, 1, b'U', 32, 0, 0, 0],
    [1, 33, 2, b'G', 0, 0, 0, 0],
    [1, 1, 2, b'U', 33, 0, 0, 0],
    [0, 1, 2, b'P', 0, 1, 1, 0],
    [2, 32, 1, b'G', 0, 0, 0, 0],
    [2, 0, 1, b'U', 32, 0, 0, 0],
    [2, 1, 2, b'P', 0, 1, 1, 0],
    [0, 0, 2, b'P', 1, 1, 2, 0],
];

fn lent() -> (Vec<u8>, Vec<u32>) {
    (vec![0; 65_536], vec![0; 32_768])
}

#[test]
fn the_listing_of_the_start_symbol() {
    let job = assemble(REPORT).unwrap();
    let (mut table, mut reasons) = lent();
    let mut listing = vec![7; 100];
    let explained = explain(&job, &mut table, &mut reasons, &[0], &mut listing).unwrap();
    assert_eq!((explained.accepted, explained.records), (true, 9));
    assert_eq!(listing[..72], LISTING.concat());
    assert!(listing[72..].iter().all(|byte| *byte == 7));
    assert_eq!(table.iter().filter(|byte| **byte == 3).count(), 9);
    assert_eq!(table.iter().filter(|byte| **byte == 2).count(), 2);
    // Listed bytes count as done, and stay.
    assert_eq!(ask(&job, &table, &[0]), Ok(true));
}

#[test]
fn a_listing_that_is_too_short() {
    let job = assemble(REPORT).unwrap();
    for length in [0, 64, 71] {
        let (mut table, mut reasons) = lent();
        let mut listing = vec![7; length];
        let refused = explain(&job, &mut table, &mut reasons, &[0], &mut listing);
        assert_eq!(refused, Err(Refusal::of(Operation::Table, 13, 9)));
        assert!(listing.iter().all(|byte| *byte == 7));
        let (mut other_table, mut other_reasons) = lent();
        explain(&job, &mut other_table, &mut other_reasons, &[0], &mut [0; 72]).unwrap();
        assert!(table == other_table && reasons == other_reasons);
    }
}

#[test]
fn forms_of_every_length() {
    // Every symbol leads from state 0 to itself.
    let mut text = String::from("S 0\nI 0\nF 0\n");
    (0..64).for_each(|x| text.push_str(&format!("T 0 {x} 0\n")));
    let job = assemble(&text).unwrap();
    let mut workspace = Workspace::new();
    for length in [0, 1, 2, 63, 64] {
        let explanation = workspace.explain(&job, &vec![63; length]).unwrap();
        assert!(explanation.accepted);
        assert_eq!(explanation.records.len(), length.min(1));
        assert_eq!(ask(&job, workspace.table(), &vec![63; length]), Ok(true));
    }
    assert_eq!(ask(&job, workspace.table(), &[0; 65]), Err(Refusal::of(Operation::Table, 12, 65)));
    // 12 comes before 11, and 11 gives the first place.
    assert_eq!(ask(&job, workspace.table(), &[64; 65]), Err(Refusal::of(Operation::Table, 12, 65)));
    assert_eq!(ask(&job, workspace.table(), &[63, 64, 255]), Err(Refusal::of(Operation::Table, 11, 1)));
    assert_eq!(workspace.explain(&job, &[63, 64, 255]).unwrap_err(), Refusal::of(Operation::Table, 11, 1));
}

#[test]
fn the_empty_form() {
    for (text, accepted) in [("S 0\nI 0\nF 0\n", true), ("S 0\nI 0\n", false), ("S 0\nI 0\nF 1\n", false)] {
        let job = assemble(text).unwrap();
        let (mut table, mut reasons) = lent();
        assert_eq!(ask(&job, &table, &[]), Ok(accepted));
        let explained = explain(&job, &mut table, &mut reasons, &[], &mut []).unwrap();
        assert_eq!((explained.accepted, explained.records), (accepted, 0));
    }
}

/// Two ways for the form 32 32 from 0 to 3: through 1 and through 2, and a third that ends nowhere. The one through 1 comes first.
#[test]
fn the_first_sequence_is_explained() {
    let job = assemble("S 0\nI 0\nF 3\nT 0 32 0\nT 0 32 2\nT 0 32 1\nT 2 32 3\nT 1 32 3\n").unwrap();
    let explanation = Workspace::new().explain(&job, &[32, 32]).unwrap();
    let states: Vec<_> = explanation.records.iter().map(|record| record.transition).collect();
    assert_eq!(states, vec![(0, 32, 1), (1, 32, 3)]);
    assert_eq!((explanation.sequence.clone(), explanation.steps()), (vec![0, 1, 3], states));
}

#[test]
fn not_accepted_lists_nothing() {
    let job = assemble(REPORT).unwrap();
    let (mut table, mut reasons) = lent();
    let mut listing = vec![7; 8];
    let explained = explain(&job, &mut table, &mut reasons, &[33], &mut listing).unwrap();
    assert_eq!((explained.accepted, explained.records), (false, 0));
    assert_eq!(table.iter().filter(|byte| **byte == 3).count(), 0);
    assert_eq!(table.iter().filter(|byte| **byte == 2).count(), 11);
    assert_eq!(listing, vec![7; 8]);
}
