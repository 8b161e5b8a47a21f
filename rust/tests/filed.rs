//! The grammars on file and the limits, run through the wrapper, with the answers written in the specification.
use ropeclover::{text::assemble, Workspace};

fn report(text: &str) -> (usize, u64, u64, bool, bool, bool) {
    let report = Workspace::new().report(&assemble(text).unwrap()).unwrap();
    (report.states, report.examined, report.joins, report.start, report.empty, report.growing)
}

fn codes(text: &str) -> (bool, bool, Vec<u8>) {
    let (verdicts, codes) = Workspace::new().verdicts(&assemble(text).unwrap()).unwrap();
    (verdicts.empty, verdicts.growing, codes.to_vec())
}

fn refused(job: &[u8]) -> (u64, u64) {
    let refusal = Workspace::new().report(job).unwrap_err();
    (refusal.number(), refusal.place())
}

const REPORT: &str = "S 0\nU 0 32\nP 0 1 1\nP 1 0 1\nU 1 33\nI 0\nF 2\nT 0 32 1\nT 1 33 2\nT 2 32 1\n";

#[test]
fn the_report_of_the_specification() {
    assert_eq!(report(REPORT), (3, 11, 8, true, false, true));
}

#[test]
fn baabab() {
    // A 0, B 1, C 2, D 3, S 4, T 5, X 6, a 32, b 33
    let grammar = "S 4\nP 4 5 5\nP 4 0 2\nP 5 0 2\nP 5 3 0\nP 5 0 1\nP 5 1 0\nP 2 6 1\nP 3 1 6\nP 6 5 5\nP 6 0 1\nP 6 1 0\nU 0 32\nU 1 33\n";
    let chain = "I 0\nF 6\nT 0 33 1\nT 1 32 2\nT 2 32 3\nT 3 33 4\nT 4 32 5\nT 5 33 6\n";
    let job = assemble(&format!("{grammar}{chain}")).unwrap();
    let mut workspace = Workspace::new();
    let finished = workspace.start(&job).unwrap().finish();
    assert_eq!((finished.states(), finished.examined()), (7, 29));
    let leads = |q: u8, r: u8| -> Vec<u8> { (0..32).filter(|a| finished.holds((q, *a, r))).collect() };
    assert_eq!(leads(0, 6), vec![4, 6]);
    assert_eq!(leads(1, 3), Vec::<u8>::new());
}

#[test]
fn verdicts_of_the_filed_grammars() {
    // Two grammars, of which the second grows: S 0, A 1, B 2, C 3, a 32, b 33, c 34
    let (_, growing, _) = codes("S 0\nP 0 1 2\nP 1 2 3\nU 1 32\nU 2 33\nU 3 34\n");
    assert!(!growing);
    let (_, growing, found) = codes("S 0\nP 0 1 2\nP 1 2 0\nU 1 32\nU 2 33\nU 3 34\n");
    assert!(growing);
    assert_eq!((found[3], found[34], found[0], found[33]), (3, 3, 1, 1));
    let (empty, growing, found) = codes("S 0\nU 0 32\nU 1 33\n");
    assert!(!empty && !growing);
    assert_eq!((found[0], found[1], found[32], found[33], found[2]), (1, 3, 1, 3, 0));
    let (empty, _, found) = codes("S 0\nP 0 1 2\nU 1 32\n");
    assert!(empty);
    assert_eq!((found[0], found[1], found[2], found[32]), (2, 3, 2, 3));
}

#[test]
fn the_empty_string() {
    assert_eq!(report("S 0\nE 0\nI 0\nF 0\n"), (1, 1, 0, true, false, false));
    assert_eq!(report("S 0\nE 0\nP 0 0 0\nI 0\nF 0\n"), (1, 1, 1, true, false, false));
    for rules in ["S 0\nE 0\n", "S 0\nE 0\nP 0 0 0\n"] {
        for (records, accepted) in [("I 0\nF 0\n", true), ("I 0\n", false)] {
            let job = assemble(&format!("{rules}{records}")).unwrap();
            assert_eq!(Workspace::new().explain(&job, &[]).unwrap().accepted, accepted);
        }
    }
}

#[test]
fn limits() {
    assert_eq!(refused(&[]), (8, 0));
    assert_eq!(refused(&assemble(REPORT).unwrap()[..39]), (1, 9));
    let mut many: Vec<u8> = b"S\0\0\0I\0\0\0".to_vec();
    'fill: for q in 0..32 {
        for x in 0..64 {
            for r in 0..32 {
                if many.len() == 16_384 {
                    break 'fill;
                }
                many.extend([b'T', q, x, r]);
            }
        }
    }
    assert!(Workspace::new().report(&many).is_ok());
    many.extend([b'F', 0, 0, 0]);
    assert_eq!(refused(&many), (2, 16_388));
    let mut rules: Vec<u8> = b"S\0\0\0I\0\0\0".to_vec();
    for n in 0..256u16 {
        rules.extend([b'P', (n / 32) as u8, (n % 32) as u8, 1]);
    }
    assert!(Workspace::new().report(&rules).is_ok());
    rules.extend([b'U', 0, 1, 0]);
    assert_eq!(refused(&rules), (7, 258));
    assert!(Workspace::new().report(&assemble("S 0\nI 31\nT 31 63 31\n").unwrap()).is_ok());
    assert_eq!(refused(&assemble("S 0\nI 0\nT 0 64 0\n").unwrap()), (4, 2));
    assert_eq!(refused(&assemble("S 0\nI 32\n").unwrap()), (4, 1));
    assert_eq!(refused(&assemble("S 0\nI 0\nS 0\n").unwrap()), (5, 2));
    assert_eq!(refused(&assemble("S 0\nI 0\nS 1\n").unwrap()), (6, 2));
    assert_eq!(refused(&assemble("S 0\n").unwrap()), (9, 1));
    let job = assemble(REPORT).unwrap();
    assert!(Workspace::new().explain(&job, &[63; 64]).is_ok());
    let refusal = Workspace::new().explain(&job, &[0; 65]).unwrap_err();
    assert_eq!((refusal.number(), refusal.place()), (12, 65));
    let refusal = Workspace::new().explain(&job, &[0, 63, 64]).unwrap_err();
    assert_eq!((refusal.number(), refusal.place()), (11, 2));
}
