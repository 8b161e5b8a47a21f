//! Cocke, Kasami and Younger: the sets M[i][j] of symbols that derive the letters i to j, for a grammar without empty bodies and without rules from a
//! variable to a variable. A pair may hold terminals: each derives itself.

pub struct Grammar {
    pub pairs: Vec<(u8, u8, u8)>,
    pub terminals: Vec<(u8, u8)>,
}

/// The sets, as sets of bits: entry [i][d] is for the part that begins at i and has d + 1 symbols.
pub fn sets(grammar: &Grammar, word: &[u8]) -> Vec<Vec<u64>> {
    let n = word.len();
    let mut m = vec![vec![0u64; n]; n];
    for i in 0..n {
        m[i][0] |= 1 << word[i];
        for (a, x) in &grammar.terminals {
            if *x == word[i] {
                m[i][0] |= 1 << a;
            }
        }
    }
    for d in 1..n {
        for i in 0..n - d {
            for k in 0..d {
                let (left, right) = (m[i][k], m[i + k + 1][d - k - 1]);
                for (a, b, c) in &grammar.pairs {
                    if left >> b & 1 == 1 && right >> c & 1 == 1 {
                        m[i][d] |= 1 << a;
                    }
                }
            }
        }
    }
    m
}

/// Whether a symbol derives the word, which is not empty.
pub fn derives(grammar: &Grammar, start: u8, word: &[u8]) -> bool {
    sets(grammar, word)[0][word.len() - 1] >> start & 1 == 1
}
