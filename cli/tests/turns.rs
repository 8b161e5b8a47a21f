//! Turns: when what an explanation shows was learned. The expected ones are worked out by hand: a step takes the pending transition from the lowest
//! state, by the lowest symbol, to the lowest state, and what the step n adds has turn n.
mod support;

use support::run;

/// A memory command is M and a digit, and one is recorded. Step 1 takes "M" from begin, behind which nothing is done yet; 2 takes "0-9", which adds the
/// digit; 3 takes the digit, which "M" stands before, and adds the memory command.
const MEMORY: &str = "name 0 memory\nname 1 digit\nname 32 \"M\"\nname 33 \"0-9\"\nstate 0 begin\nstate 2 end\n\
    S memory\nP memory \"M\" digit\nU digit \"0-9\"\nI begin\nF end\nT begin \"M\" 1\nT 1 \"0-9\" end\n";

/// 0 → 1 2 with 1 → ε, and 2 given from 0 to 1. Step 1 takes (0, 1, 0), of the lowest symbol from 0, behind which nothing is done yet; 2 takes (0, 2, 1),
/// which it stands before, and adds (0, 0, 1).
const EMPTY: &str = "S 0\nP 0 1 2\nE 1\nI 0\nF 1\nT 0 2 1\n";

/// 0 → 1 1 and 1 → 32 on a loop: step 1 takes 32 and adds 1, step 2 takes that, which is its own partner, and adds 0.
const LOOP: &str = "S 0\nP 0 1 1\nU 1 32\nI 0\nF 0\nT 0 32 0\n";

#[test]
fn in_a_listing() {
    run(&["explain", "--turns"], MEMORY.as_bytes()).prints(
        "accepted yes\nform memory\nsequence begin end\nrecords 4\nbegin \"M\" 1 given turn 0\n1 \"0-9\" end given turn 0\n\
        1 digit end by digit -> \"0-9\" turn 2\nbegin memory end by memory -> \"M\" digit at 1 turn 3\n",
    );
    run(&["explain", "-", "#0", "--turns"], EMPTY.as_bytes()).prints(
        "accepted yes\nform 0\nsequence 0 1\nrecords 3\n0 1 0 by 1 -> empty turn 0\n0 2 1 given turn 0\n\
        0 0 1 by 0 -> 1 2 at 0 turn 2\n",
    );
}

#[test]
fn in_a_tree() {
    run(&["explain", "--tree", "--turns"], MEMORY.as_bytes()).prints(
        "accepted yes\nform memory\nsequence begin end\nbegin memory end by memory -> \"M\" digit at 1 turn 3\n\
        \x20 begin \"M\" 1 given turn 0\n  1 digit end by digit -> \"0-9\" turn 2\n    1 \"0-9\" end given turn 0\n",
    );
    run(&["explain", "--turns", "--tree"], LOOP.as_bytes()).prints(
        "accepted yes\nform 0\nsequence 0 0\n0 0 0 by 0 -> 1 1 at 0 turn 2\n  0 1 0 by 1 -> 32 turn 1\n\
        \x20   0 32 0 given turn 0\n  0 1 0 by 1 -> 32 turn 1 (shown above)\n",
    );
}

#[test]
fn in_a_graph() {
    run(&["explain", "--dot", "--turns"], LOOP.as_bytes()).prints(concat!(
        "digraph derivation {\n  graph [ordering=out];\n  node [shape=box];\n",
        "  form [shape=ellipse, label=\"form 0\\naccepted by the states 0 0\"];\n  form -> \"0 0 0\" [label=\"step 1\"];\n",
        "  \"0 32 0\" [label=\"0 32 0\\ngiven\\nturn 0\"];\n  \"0 1 0\" [label=\"0 1 0\\nby 1 -> 32\\nturn 1\"];\n",
        "  \"0 1 0\" -> \"0 32 0\" [label=\"from\"];\n  \"0 0 0\" [label=\"0 0 0\\nby 0 -> 1 1 at 0\\nturn 2\"];\n",
        "  \"0 0 0\" -> \"0 1 0\" [label=\"first\"];\n  \"0 0 0\" -> \"0 1 0\" [label=\"second\"];\n}\n"
    ));
}

#[test]
fn in_json() {
    run(&["explain", "--format", "json", "--turns"], EMPTY.as_bytes()).prints(concat!(
        "{\"accepted\":true,\"form\":[0],\"records\":[",
        "{\"body\":[],\"from\":0,\"middle\":null,\"reason\":\"empty\",\"symbol\":1,\"to\":0,\"turn\":0},",
        "{\"body\":null,\"from\":0,\"middle\":null,\"reason\":\"given\",\"symbol\":2,\"to\":1,\"turn\":0},",
        "{\"body\":[1,2],\"from\":0,\"middle\":0,\"reason\":\"pair\",\"symbol\":0,\"to\":1,\"turn\":2}",
        "],\"sequence\":[0,1],\"states\":{},\"symbols\":{}}\n"
    ));
}

/// Nothing is learned for a form that is not accepted or is empty; a refusal is told as ever.
#[test]
fn without_records() {
    run(&["explain", "--turns", "-", "#33"], LOOP.as_bytes()).prints("accepted no\nform 33\nrecords 0\n");
    run(&["explain", "--turns", "-", ""], LOOP.as_bytes()).prints("accepted yes\nform \"\"\nsequence 0\nrecords 0\n");
    run(&["explain", "--turns"], b"S 0\n").refuses("refused 9 at 1\n", &["error[refused 9 at 1]"]);
}

/// Turns are shown only where they are asked for: without them, what is left of each line and label is the output that there was before.
#[test]
fn only_where_they_are_asked_for() {
    for (text, words) in
        [MEMORY, EMPTY, LOOP].iter().flat_map(|text| [&[][..], &["--tree"], &["--dot"]].map(|words| (text, words)))
    {
        let plain = run(&[&["explain"], words].concat(), text.as_bytes()).stdout;
        let mut shown = run(&[&["explain", "--turns"], words].concat(), text.as_bytes()).stdout;
        assert!(!plain.contains("turn") && shown != plain);
        for turn in 0..4 {
            shown = shown.replace(&format!(" turn {turn}"), "").replace(&format!("\\nturn {turn}"), "");
        }
        assert_eq!(shown, plain);
    }
}
