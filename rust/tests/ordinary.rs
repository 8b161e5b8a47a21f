//! The ordinary job of a text, with long rules and without. What is expected is split by hand.
use ropeclover::text::{self, assemble, Text};
use ropeclover::{Refusal, Workspace};

fn read(text: &str) -> Text {
    text::read(text).unwrap()
}

/// The example's long rule takes 2 to 4, and every call takes the job.
#[test]
fn the_example_with_a_long_rule() {
    let text = read(include_str!("../../examples/memory.txt"));
    let ordinary = text.ordinary().unwrap();
    let split = "S 0\nP 0 32 2\nP 2 1 3\nP 3 33 4\nP 4 1 1\nU 1 34\nI 0\nF 5\nT 0 32 1\nT 1 34 2\nT 2 33 3\nT 3 34 4\nT 4 34 5\n";
    assert_eq!(ordinary.job, assemble(split).unwrap());
    assert_eq!(ordinary.fresh, [2, 3, 4]);
    assert_eq!(
        [0, 1, 2, 3, 4].map(|symbol| ordinary.names.symbol(symbol)),
        ["memory", "digit", "memory.2", "memory.3", "memory.4"]
    );
    assert_eq!(ordinary.names.state(5), "end");
    let mut workspace = Workspace::new();
    assert!(workspace.report(&ordinary.job).unwrap().start);
    let explanation = workspace.explain(&ordinary.job, &[0]).unwrap();
    let last = explanation.records.last().unwrap().named(&ordinary.names).to_string();
    assert_eq!(last, "begin memory end by memory -> \"M\" memory.2 at 1");
    assert_eq!(workspace.clean(&ordinary.job).unwrap().left_out, []);
    // What the text spells is a long job still, which no call but binarize takes.
    assert!(matches!(workspace.report(&text.bytes), Err(Refusal::UnknownKind { .. })));
}

/// Without a long rule the job is what the text spells, be it one that is refused.
#[test]
fn texts_without_long_rules() {
    for spelled in [include_str!("../../examples/radio.txt"), "name 3 go\nI 0\nX 1 2 3\n", ""] {
        let text = read(spelled);
        let ordinary = text.ordinary().unwrap();
        assert_eq!((&ordinary.job, &ordinary.names), (&text.bytes, &text.names));
        assert!(ordinary.fresh.is_empty() && !text.is_long);
        assert_eq!(ordinary.job, assemble(spelled).unwrap());
    }
}

/// Two long rules of one head, and a name for a variable that no record has: a tail takes the variable, and the name goes.
#[test]
fn names_of_taken_variables() {
    let text = "name 0 go\nname 1 old\nname 33 \"x\"\nS go\nL go \"x\" 2 \"x\"\nL go 2 2 \"x\" 2\nU 2 \"x\"\nI 0\n";
    let ordinary = read(text).ordinary().unwrap();
    let expected = "S 0\nP 0 33 1\nP 1 2 33\nP 0 2 3\nP 3 2 4\nP 4 33 2\nU 2 33\nI 0\n";
    assert_eq!(ordinary.job, assemble(expected).unwrap());
    assert_eq!(ordinary.fresh, [1, 3, 4]);
    assert_eq!([1, 2, 3, 4].map(|symbol| ordinary.names.symbol(symbol)), ["go.2", "2", "go.2.2", "go.2.3"]);
    assert_eq!(ordinary.names.find_symbol("old"), None);
}

/// A refusal speaks of the text's records. Each rule takes six variables, and 31 are free: the sixth rule, record 7 in line 9, finds one.
#[test]
fn refused_long_texts() {
    let body = |terminal: usize| format!("L 0{}\n", format!(" {terminal}").repeat(8));
    let rules: String = (32..38).map(body).collect();
    let text = read(&format!("# six rules\nS 0\nI 0\n{rules}"));
    let refusal = text.ordinary().unwrap_err();
    assert!(matches!(refusal, Refusal::TooFewVariables { place } if place.record() == 7), "{refusal:?}");
    assert_eq!(text.records[refusal.record().unwrap()].line, 9);
    assert_eq!(read("S 0\nL 0 32 32 32\n").ordinary().unwrap_err(), Refusal::NoInitial { records: 2 });
}
