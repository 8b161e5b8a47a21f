//! Turns by hand, from the definition: a job step by step, what a start writes, the largest turn, and entries that stood there before.
mod support;

use ropeclover::{explain, text::assemble, Workspace};
use support::both::Both;
use support::machine::{place, reason_place, triple, Triple};
use support::run::reasons;
use support::{seed, Random};

/// What a turn counts for in an entry.
const TURN: u32 = 65_536;

/// A table of these bytes at their transitions, the others one byte.
fn table(others: u8, bytes: &[(Triple, u8)]) -> Vec<u8> {
    let mut table = vec![others; 65_536];
    bytes.iter().for_each(|(t, byte)| table[place(*t)] = *byte);
    table
}

impl Both {
    /// Makes a step, which leads to this table and these reasons.
    fn steps_to(&mut self, table: &[u8], entries: &[u32]) {
        assert_eq!(self.advance(1).steps, 1);
        self.holds(table, entries);
    }
}

/// S → a | A A and A → S A | b on 0 -a-> 1 -b-> 2 -a-> 1, where S is 0, A is 1, a is 32 and b is 33. Ranks: 0 -> 1 1 is 0, 0 -> 32 is 1, 1 -> 0 1 is 2,
/// 1 -> 33 is 3. By hand:
///
/// A step takes the pending (q, X, r) of lowest place q · 2048 + X · 32 + r and makes it done. From a start nothing else is done before, so after step n
/// just n places are done: n is the turn of what the step adds.
///
///  1. (0, 32, 1), of place 1025, comes before (1, 33, 2) and (2, 32, 1), of 3106 and 5121. It adds (0, 0, 1) by 0 -> 32.
///  2. (0, 0, 1), of place 1. Nothing follows: no transition of 1 is done.
///  3. (1, 33, 2) adds (1, 1, 2) by 1 -> 33.
///  4. (1, 1, 2), of place 2082, stands behind (0, 0, 1): (0, 1, 2) follows by 1 -> 0 1 at 1.
///  5. (0, 1, 2), of place 34. Nothing follows: from 2 no transition of 1 is done, and to 0 none of 0 or 1.
///  6. (2, 32, 1) adds (2, 0, 1) by 0 -> 32.
///  7. (2, 0, 1), of place 4097, stands before (1, 1, 2): (2, 1, 2) follows by 1 -> 0 1 at 1.
///  8. (2, 1, 2), of place 4130, stands behind (0, 1, 2), (1, 1, 2) and itself: (0, 0, 2), (1, 0, 2) and (2, 0, 2) follow by 0 -> 1 1 at 2.
///  9. to 11. take these three. Behind each stands (2, 1, 2), by which (0, 1, 2), (1, 1, 2) and (2, 1, 2) would follow: they are there, and keep
///     their entries.
const REPORT: &str = "S 0\nU 0 32\nP 0 1 1\nP 1 0 1\nU 1 33\nI 0\nF 2\nT 0 32 1\nT 1 33 2\nT 2 32 1\n";

/// What each step takes, and what it adds with which reason.
const STEPS: [(Triple, &[(Triple, u32)]); 11] = [
    ((0, 32, 1), &[((0, 0, 1), 1 + 32)]),
    ((0, 0, 1), &[]),
    ((1, 33, 2), &[((1, 1, 2), 1 + 32 * 3)]),
    ((1, 1, 2), &[((0, 1, 2), 1 + 32 * 2 + 1)]),
    ((0, 1, 2), &[]),
    ((2, 32, 1), &[((2, 0, 1), 1 + 32)]),
    ((2, 0, 1), &[((2, 1, 2), 1 + 32 * 2 + 1)]),
    ((2, 1, 2), &[((0, 0, 2), 1 + 2), ((1, 0, 2), 1 + 2), ((2, 0, 2), 1 + 2)]),
    ((0, 0, 2), &[]),
    ((1, 0, 2), &[]),
    ((2, 0, 2), &[]),
];

#[test]
fn the_report_by_hand() {
    let job = assemble(REPORT).unwrap();
    let mut both = Both::new(job.clone(), vec![2; 65_536], vec![u32::MAX; 32_768]);
    both.start();
    let (mut expected, mut entries) = (table(0, &[((0, 32, 1), 1), ((1, 33, 2), 1), ((2, 32, 1), 1)]), vec![0; 32_768]);
    both.holds(&expected, &entries);
    for ((taken, added), turn) in STEPS.iter().zip(1..) {
        expected[place(*taken)] = 2;
        for (t, reason) in *added {
            expected[place(*t)] = 1;
            entries[reason_place(*t)] = reason + TURN * turn;
        }
        both.steps_to(&expected, &entries);
    }
    // The same to the end in one go, and by explain.
    let mut workspace = Workspace::new();
    workspace.start(&job).unwrap().finish();
    assert!(workspace.reasons() == entries);
    workspace.explain(&job, &[0]).unwrap();
    assert!(workspace.reasons() == entries);
    let turns = [(0, 0, 1), (0, 0, 2), (0, 1, 2), (1, 0, 2), (1, 1, 2), (2, 0, 1), (2, 0, 2), (2, 1, 2)];
    assert_eq!(turns.map(|t| workspace.turn(t)), [1, 8, 4, 8, 3, 6, 8, 7]);
    // A terminal's, and what is not there.
    assert_eq!([(0, 32, 1), (1, 0, 1), (32, 0, 0), (0, 64, 2), (0, 0, 32)].map(|t| workspace.turn(t)), [0; 5]);
}

/// Whatever stood there before, what is given and what is there by 1 → ε, of rank 1 after 0 -> 1 1, has turn 0. (1, 1, 1) is both, and so given.
#[test]
fn what_a_start_writes() {
    let job = assemble("S 0\nP 0 1 1\nE 1\nI 0\nF 2\nT 1 1 1\nT 0 3 2\n").unwrap();
    let mut both = Both::new(job, vec![2; 65_536], vec![u32::MAX; 32_768]);
    both.start();
    let begun = [((0, 1, 0), 1 + 32), ((1, 1, 1), 65_535), ((2, 1, 2), 1 + 32), ((0, 3, 2), 65_535)];
    let (mut expected, mut entries) = (vec![0; 65_536], vec![0; 32_768]);
    for (t, entry) in begun {
        expected[place(t)] = 1;
        entries[reason_place(t)] = entry;
    }
    both.holds(&expected, &entries);
    // The first step takes (0, 1, 0), which is its own partner at 0, and is the first that is done.
    expected[place((0, 1, 0))] = 2;
    expected[place((0, 0, 0))] = 1;
    entries[reason_place((0, 0, 0))] = 1 + TURN;
    both.steps_to(&expected, &entries);
}

/// 0 → 1, 1 → 2, and so on to 31 → 32, each of its head's rank, with 32 from every state to every state. The places from a state are taken by label, the
/// lowest first, so (q, 32, r) is followed by (q, 31, r), which it adds, by (q, 30, r), and so on down to (q, 0, r), before the next (q, 32, r'): 33
/// steps for each q and r. Of these the first takes (q, 32, r) and the step 32 − a takes (q, a + 1, r), which adds (q, a, r).
#[test]
fn a_long_run_by_hand() {
    let mut text = String::from("S 0\nI 31\nF 31\n");
    (0..32).for_each(|a| text += &format!("U {a} {}\n", a + 1));
    (0..1024).for_each(|n| text += &format!("T {} 32 {}\n", n / 32, n % 32));
    let mut entries = vec![0; 32_768];
    for (q, a, r) in (0..65_536).map(triple).filter(|t| t.1 < 32) {
        entries[reason_place((q, a, r))] = 1 + 32 * a as u32 + TURN * (33 * (32 * q + r) + 32 - a) as u32;
    }
    assert_eq!(entries[reason_place((31, 0, 31))], 1 + TURN * 33_791);
    let mut both = Both::new(assemble(&text).unwrap(), vec![3; 65_536], vec![9; 32_768]);
    both.start();
    for n in [1, 1_000, 0, 20_000, u64::MAX] {
        both.advance(n);
    }
    let done = (0..65_536).map(|place| if triple(place).1 <= 32 { 2 } else { 0 });
    both.holds(&done.collect::<Vec<u8>>(), &entries);
    // The last one is listed after all that it follows from.
    let mut listing = vec![0; 8 * 33];
    explain(&both.job, &mut both.table, &mut both.table_reasons, &[0], &mut listing).unwrap();
    let given = [31, 32, 31, b'G', 0, 0, 0, 0];
    let units = (0..32).rev().map(|a| [31, a, 31, b'U', a + 1, 0, 0, 0]);
    assert_eq!(listing, [given].into_iter().chain(units).flatten().collect::<Vec<u8>>());
    assert!(both.table_reasons == entries);
}

/// Bytes 2 and 3 count as done, whatever wrote them, 1 and 4 to 255 do not; nor does what stands past the table. The last step takes (0, 32, 7) and
/// adds (0, 0, 7) by 0 -> 32.
#[test]
fn done_places_that_no_step_made() {
    let job = assemble("S 0\nU 0 32\nI 0\n").unwrap();
    let (first, last) = ((0, 0, 0), (31, 63, 31));
    for (others, more, steps, turn) in [
        (0, vec![], 1, 1),
        (0, vec![(first, 2), (last, 3)], 1, 3),
        (0, vec![(first, 4), (last, 255), ((9, 9, 9), 3)], 1, 2),
        (255, vec![((9, 40, 9), 1), ((9, 41, 9), 2)], 1, 2),
        (3, vec![((0, 0, 7), 5)], 1, 65_535),
        // The first place is taken before, and the last is absent.
        (2, vec![((0, 0, 7), 0), (first, 1), (last, 4)], 2, 65_534),
    ] {
        let bytes = table(others, &[&more[..], &[((0, 32, 7), 1)]].concat());
        let mut both = Both::new(job.clone(), bytes, vec![7; 32_768]);
        both.table.extend([2; 100]);
        both.bits.extend([0xff; 100]);
        assert_eq!(both.advance(steps).steps, steps);
        assert_eq!(both.table_reasons[7], 1 + TURN * turn, "{others} {more:?}");
        assert!(both.bits_reasons == both.table_reasons);
    }
}

/// One place is pending and all others are done: the turn would be 65,536, but nothing is absent.
#[test]
fn all_done() {
    let job = assemble("S 0\nU 0 32\nU 0 0\nP 0 0 0\nP 1 32 33\nP 2 63 63\nI 0\n").unwrap();
    let entries = reasons(&mut seed("all_done"), 32_768);
    for taken in [(0, 0, 0), (0, 32, 1), (3, 33, 3), (31, 0, 31), (31, 31, 31), (31, 63, 31)] {
        for others in [2, 3] {
            let mut both = Both::new(job.clone(), table(others, &[(taken, 1)]), entries.clone());
            let advanced = both.advance(u64::MAX);
            assert_eq!((advanced.finished, advanced.steps), (true, 1));
            both.holds(&table(others, &[(taken, 2)]), &entries);
        }
    }
}

/// One variable's place is absent, and comes in at the largest turn. Then a step takes it, and all is done.
#[test]
fn the_largest_turn() {
    // As many rules as there may be. The last, 31 -> 63 63, has rank 255, and at 31 the largest reason.
    let others = (0..255).map(|n| format!("P {} {} 32\n", n / 32, n % 32)).collect::<String>();
    let many = format!("S 0\nI 0\n{others}P 31 63 63\n");
    for (text, taken, absent, reason) in [
        ("S 0\nU 0 32\nI 0\n", (0, 32, 0), (0, 0, 0), 1),
        ("S 0\nU 0 32\nI 0\n", (31, 32, 31), (31, 0, 31), 1),
        ("S 0\nU 5 9\nI 0\n", (7, 9, 20), (7, 5, 20), 1),
        (&many[..], (31, 63, 31), (31, 31, 31), 1 + 32 * 255 + 31),
    ] {
        let mut entries = reasons(&mut Random::new(reason.into()), 32_768);
        let bytes = table(3, &[(taken, 1), (absent, 0)]);
        let mut both = Both::new(assemble(text).unwrap(), bytes, entries.clone());
        entries[reason_place(absent)] = reason + TURN * 65_535;
        both.steps_to(&table(3, &[(taken, 2), (absent, 1)]), &entries);
        both.steps_to(&table(3, &[(taken, 2), (absent, 2)]), &entries);
        assert!(both.advance(1).finished);
    }
}

/// The two last absent places come in by the two steps before the last, whether a call makes one of them or all three.
#[test]
fn the_last_two_turns() {
    // Ranks: 0 -> 32 is 0, 1 -> 0 is 1.
    let job = assemble("S 0\nU 0 32\nU 1 0\nI 0\n").unwrap();
    for calls in [&[3][..], &[1, 2], &[2, 1], &[1, 1, 1]] {
        let bytes = table(2, &[((4, 32, 4), 1), ((4, 0, 4), 0), ((4, 1, 4), 200)]);
        let mut both = Both::new(job.clone(), bytes, vec![1; 32_768]);
        calls.iter().for_each(|n| assert_eq!(both.advance(*n).steps, *n));
        let mut entries = vec![1; 32_768];
        entries[reason_place((4, 0, 4))] = 1 + TURN * 65_534;
        entries[reason_place((4, 1, 4))] = 1 + 32 + TURN * 65_535;
        both.holds(&vec![2; 65_536], &entries);
    }
}

/// Entries that may stand in an absent place: their reasons and turns are smaller and larger than those that a step offers there.
const STOOD: [u32; 9] = [0, 1, 2, 40, 65_535, 9 * TURN, 1 + 9 * TURN, 40 + 65_535 * TURN, u32::MAX];

/// Whatever stood in an absent place, it gets the smallest of this step's reasons, and this step's turn. Here (0, 32, 0) is its own partner, so that
/// 0 -> 32 32, of rank 0, offers 1, while 0 -> 32, of rank 1, offers 33. With (0, 40, 0) and (5, 40, 5) three places are done then.
#[test]
fn what_stood_there_does_not_matter() {
    for (text, reason) in [("S 0\nP 0 32 32\nU 0 32\nI 0\n", 1), ("S 0\nP 0 9 9\nU 0 32\nI 0\n", 33)] {
        let job = assemble(text).unwrap();
        for (stood, absent) in STOOD.into_iter().flat_map(|stood| [0, 4, 255].map(|byte| (stood, byte))) {
            let done = [((0, 40, 0), 3), ((5, 40, 5), 2)];
            let bytes = table(absent, &[done[0], done[1], ((0, 32, 0), 1)]);
            let mut both = Both::new(job.clone(), bytes, vec![stood; 32_768]);
            let mut entries = vec![stood; 32_768];
            entries[0] = reason + TURN * 3;
            both.steps_to(&table(absent, &[done[0], done[1], ((0, 32, 0), 2), ((0, 0, 0), 1)]), &entries);
        }
    }
}

/// (q, 1, r) stands behind (q, 1, q) and before (r, 1, r), so that 0 -> 1 1, of rank 0, offers (q, 0, r) at q and at r: the smaller state is the smaller
/// reason. 0 -> 1 offers it by rank 1, behind 0 -> 1 1 or 0 -> 2 2.
#[test]
fn the_smallest_reason_of_a_step() {
    let texts = [("P 0 1 1\n", 1 + 3), ("P 0 1 1\nU 0 1\n", 1 + 3), ("P 0 2 2\nU 0 1\n", 1 + 32)];
    for ((rules, reason), (q, r)) in texts.into_iter().flat_map(|text| [(text, (3, 8)), (text, (8, 3))]) {
        let job = assemble(&format!("S 0\nI 0\n{rules}")).unwrap();
        for stood in STOOD {
            let beside = [((q, 1, q), 2), ((r, 1, r), 3)];
            let bytes = table(0, &[beside[0], beside[1], ((q, 1, r), 1)]);
            let mut both = Both::new(job.clone(), bytes, vec![stood; 32_768]);
            let mut entries = vec![stood; 32_768];
            entries[reason_place((q, 0, r))] = reason + TURN * 3;
            both.steps_to(&table(0, &[beside[0], beside[1], ((q, 1, r), 2), ((q, 0, r), 1)]), &entries);
        }
    }
}

/// What is there keeps its entry, whatever that is, when (1, 3, 0) is taken and offers (1, 5, 0) the reason 1.
#[test]
fn what_is_there_keeps_its_entry() {
    let job = assemble("S 0\nU 5 3\nI 0\n").unwrap();
    for (stood, there) in STOOD.into_iter().flat_map(|stood| [1, 2, 3].map(|byte| (stood, byte))) {
        let bytes = table(0, &[((1, 3, 0), 1), ((1, 5, 0), there)]);
        let mut both = Both::new(job.clone(), bytes, vec![stood; 32_768]);
        both.steps_to(&table(0, &[((1, 3, 0), 2), ((1, 5, 0), there)]), &vec![stood; 32_768]);
    }
}
