//! The accepting state sequence that an explanation follows.

/// The states that a set of bits holds, lowest first.
fn members(bits: u32) -> impl Iterator<Item = usize> {
    (0..32).filter(move |q| bits >> q & 1 == 1)
}

/// The states that a symbol leads to from a state, over the done transitions of a table.
fn successors(table: &[u8], from: usize, symbol: u8) -> u32 {
    let row = from * 2048 + usize::from(symbol) * 32;
    (0..32).filter(|to| matches!(table[row + to], 2 | 3)).fold(0, |bits, to| bits | 1 << to)
}

/// The accepting sequence that comes first in lexicographic order, on a table of full length: one state more than the form has symbols; none
/// where the form is not accepted.
pub(crate) fn first(job: &[u8], table: &[u8], form: &[u8]) -> Option<Vec<u8>> {
    let states =
        |kind| job.chunks_exact(4).filter(move |record| record[0] == kind).map(|record| usize::from(record[1]));
    let initial = states(b'I').next()?;
    // finish[i]: the states from which the form's rest from i leads to a final one.
    let mut finish = vec![states(b'F').fold(0, |bits, q| bits | 1 << q)];
    for symbol in form.iter().rev() {
        let last = finish[finish.len() - 1];
        finish.push((0..32).filter(|q| successors(table, *q, *symbol) & last != 0).fold(0, |bits, q| bits | 1 << q));
    }
    finish.reverse();
    let mut sequence = vec![initial as u8];
    members(finish[0]).find(|q| *q == initial)?;
    let mut at = initial;
    for (symbol, rest) in form.iter().zip(&finish[1..]) {
        at = members(successors(table, at, *symbol) & rest).next()?;
        sequence.push(at as u8);
    }
    Some(sequence)
}
