//! What the tests share: random numbers and jobs, and a machine written apart from the library, straight from the specification.
#![allow(dead_code)]
pub mod abnf;
pub mod abnf_meaning;
pub mod abnf_texts;
pub mod bits;
pub mod bits_run;
pub mod both;
pub mod cky;
pub mod clean;
pub mod infinite;
pub mod jobs;
pub mod long;
pub mod long_jobs;
pub mod machine;
pub mod productions;
pub mod read_abnf;
pub mod run;
pub mod strings;
pub mod verdicts;
pub mod written;

#[path = "../../src/random.rs"]
mod random;

/// The crate's generator, with the choices that tests make.
pub struct Random(random::Random);

impl Random {
    pub fn new(seed: u64) -> Self {
        Random(random::Random(seed))
    }

    /// The seed from which the next choices follow.
    pub fn seed(&self) -> u64 {
        self.0 .0
    }

    pub fn next(&mut self) -> u64 {
        self.0.next()
    }

    pub fn below(&mut self, n: usize) -> usize {
        self.0.below(n)
    }

    pub fn byte_below(&mut self, n: usize) -> u8 {
        self.below(n) as u8
    }

    /// Whether an event of one in n happens.
    pub fn one_in(&mut self, n: usize) -> bool {
        self.below(n) == 0
    }

    pub fn pick<'a, T>(&mut self, items: &'a [T]) -> &'a T {
        &items[self.below(items.len())]
    }

    pub fn shuffle<T>(&mut self, items: &mut [T]) {
        self.0.shuffle(items);
    }
}

/// A seed for a test's run: ROPECLOVER_SEED, or a fixed one. It is printed where the test fails, so that a failure can be repeated.
pub fn seed(test: &str) -> Random {
    let seed = std::env::var("ROPECLOVER_SEED").ok().and_then(|s| s.parse().ok()).unwrap_or(20_061_120);
    println!("{test}: seed {seed}");
    Random::new(seed)
}

/// Text that is printed where the test fails while this is kept.
pub struct ToldOnFailure(pub String);

impl Drop for ToldOnFailure {
    fn drop(&mut self) {
        if std::thread::panicking() {
            println!("{}", self.0);
        }
    }
}

/// A buffer between guard elements: a write outside it shows.
pub struct Guarded<T> {
    all: Vec<T>,
    len: usize,
    guard: T,
}

const GUARD: usize = 64;

impl<T: Copy + PartialEq + std::fmt::Debug> Guarded<T> {
    pub fn new(contents: &[T], guard: T) -> Self {
        let mut all = vec![guard; GUARD];
        all.extend_from_slice(contents);
        all.extend(vec![guard; GUARD]);
        Guarded { all, len: contents.len(), guard }
    }

    pub fn get(&self) -> &[T] {
        &self.all[GUARD..GUARD + self.len]
    }

    pub fn get_mut(&mut self) -> &mut [T] {
        &mut self.all[GUARD..GUARD + self.len]
    }

    pub fn check(&self) {
        assert!(self.all[..GUARD].iter().all(|x| *x == self.guard), "a write before the buffer");
        assert!(self.all[GUARD + self.len..].iter().all(|x| *x == self.guard), "a write past the buffer");
    }
}
