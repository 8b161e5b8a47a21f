//! Trees and graphs: one root for each step of the form, and output that grows with the records alone.
mod support;

use support::run;

/// One state, over which 32 leads, and so 1 by 1 → 32.
const LOOP: &str = "S 1\nI 0\nF 0\nT 0 32 0\nU 1 32\n";

fn tree(form: &[&str]) -> String {
    let ran = run(&[&["explain", "--tree", "-"], form].concat(), LOOP.as_bytes());
    assert_eq!((ran.status, ran.stderr.as_str()), (Some(0), ""));
    ran.stdout
}

#[test]
fn a_tree_for_each_step() {
    assert_eq!(
        tree(&["#1", "#32"]),
        "accepted yes\nform 1 32\nsequence 0 0 0\n0 1 0 by 1 -> 32\n  0 32 0 given\n0 32 0 given\n"
    );
    assert_eq!(
        tree(&["#32", "#32", "#1"]),
        "accepted yes\nform 32 32 1\nsequence 0 0 0 0\n0 32 0 given\n0 32 0 given\n0 1 0 by 1 -> 32\n  0 32 0 given\n"
    );
    assert_eq!(
        tree(&["#1", "#1"]),
        "accepted yes\nform 1 1\nsequence 0 0 0\n0 1 0 by 1 -> 32\n  0 32 0 given\n0 1 0 by 1 -> 32 (shown above)\n"
    );
    assert_eq!(tree(&["#33"]), "accepted no\nform 33\n");
}

/// Two ways for the form 32 32 from 0 to 3, and a third that ends nowhere: the one through 1 comes first.
#[test]
fn the_first_sequence_is_shown() {
    let text = "S 0\nI 0\nF 3\nT 0 32 0\nT 0 32 2\nT 0 32 1\nT 2 32 3\nT 1 32 3\n";
    run(&["explain", "--tree", "-", "#32", "#32"], text.as_bytes())
        .prints("accepted yes\nform 32 32\nsequence 0 1 3\n0 32 1 given\n1 32 3 given\n");
}

fn graph(form: &[&str]) -> String {
    run(&[&["explain", "--dot", "-"], form].concat(), LOOP.as_bytes()).stdout
}

#[test]
fn a_graph_has_ordered_and_labelled_edges() {
    assert_eq!(
        graph(&["#32", "#32", "#1"]),
        concat!(
            "digraph derivation {\n  graph [ordering=out];\n  node [shape=box];\n",
            "  form [shape=ellipse, label=\"form 32 32 1\\naccepted by the states 0 0 0 0\"];\n",
            "  form -> \"0 32 0\" [label=\"step 1\"];\n  form -> \"0 32 0\" [label=\"step 2\"];\n",
            "  form -> \"0 1 0\" [label=\"step 3\"];\n",
            "  \"0 32 0\" [label=\"0 32 0\\ngiven\"];\n  \"0 1 0\" [label=\"0 1 0\\nby 1 -> 32\"];\n",
            "  \"0 1 0\" -> \"0 32 0\" [label=\"from\"];\n}\n"
        )
    );
    assert!(graph(&["#33"]).contains("label=\"form 33\\nnot accepted\""));
    assert_ne!(graph(&["#1", "#32"]), graph(&["#1", "#1"]));
}

#[test]
fn premises_are_first_and_second() {
    let text = "S 0\nP 0 1 2\nI 0\nF 2\nname 1 \"a\\\"b\"\nT 0 1 1\nT 1 2 2\n";
    let graph = run(&["explain", "--dot"], text.as_bytes()).stdout;
    let first = graph.find("\"0 0 2\" -> \"0 1 1\" [label=\"first\"];").unwrap();
    let second = graph.find("\"0 0 2\" -> \"1 2 2\" [label=\"second\"];").unwrap();
    assert!(first < second);
    // A quote or a backslash in a name does not end a label.
    assert!(graph.contains("label=\"0 \\\"a\\\\\\\"b\\\" 1\\ngiven\""), "{graph}");
}

/// A chain of reasons over 26,000 long: variable k < 27 walks along the states r of (q, k, r) by k → k 29, and at state 31 goes on to variable
/// k + 1 at state 0; from variable 26 the walk goes on at q + 1, by 27 → 28 26 and 0 → 27.
fn chain() -> Vec<u8> {
    let mut job: Vec<u8> = vec![b'S', 26, 0, 0, b'I', 31, 0, 0, b'F', 31, 0, 0, b'T', 0, 0, 0, b'T', 31, 30, 0];
    (0..27).for_each(|k| job.extend([b'P', k, k, 29]));
    (0..26).for_each(|k| job.extend([b'P', k + 1, k, 30]));
    job.extend([b'P', 27, 28, 26, b'U', 0, 27, 0]);
    (0..31).for_each(|q| job.extend([b'T', q, 29, q + 1, b'T', q + 1, 28, q]));
    job
}

#[test]
fn depth_does_not_multiply_a_tree() {
    let tree = run(&["explain", "--tree"], &chain()).stdout;
    let lines: Vec<&str> = tree.lines().collect();
    assert!(lines.len() > 26_000);
    // At most 40 indentations, a depth and a line: depth would have made 1.4 GB.
    assert!(lines.iter().all(|line| line.len() < 150));
    assert!(lines.iter().any(|line| line.starts_with(&format!("{}[41] ", " ".repeat(80)))));
    assert!(lines.iter().any(|line| line.trim_start().starts_with("[20000] ")));
    let head =
        "accepted yes\nform 26\nsequence 31 31\n31 26 31 by 26 -> 26 29 at 30\n  31 26 30 by 26 -> 26 29 at 29\n";
    assert!(tree.starts_with(head));
}

#[test]
fn a_shared_subtree_is_shown_once() {
    // 0 → 1 1 over a loop: both premises are the same transition, whose own premise is shown once.
    let text = "S 0\nP 0 1 1\nU 1 32\nI 0\nF 0\nT 0 32 0\n";
    run(&["explain", "--tree"], text.as_bytes()).prints(
        "accepted yes\nform 0\nsequence 0 0\n0 0 0 by 0 -> 1 1 at 0\n  0 1 0 by 1 -> 32\n    0 32 0 given\n  0 1 0 by 1 -> 32 (shown above)\n",
    );
}
