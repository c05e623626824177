//! The suites: the Rattle library and its programs held to the reference of `lib.rs`, and both to
//! off-the-shelf solvers. A suite prints one line; the first mismatch ends the run.

mod painted;
mod solver;
mod suites;

/// How much a run takes on, and from which seed.
#[derive(Clone, Copy)]
pub struct Run {
    pub seed: u64,
    pub long: bool,
}

impl Run {
    /// The cases of a suite: so many in the gate, ten times as many in a long run.
    pub fn cases(&self, gate: u64) -> std::ops::Range<u64> {
        0..if self.long { 10 * gate } else { gate }
    }
}

/// A suite's line, or its first mismatch.
type Outcome = Result<String, String>;

fn main() {
    let words: Vec<String> = std::env::args().skip(1).collect();
    let long = words.first().is_some_and(|word| word == "long");
    let given = words.iter().filter_map(|word| word.parse().ok()).next();
    let seeds = match given {
        Some(seed) => seed..=seed,
        None if long => 1..=10,
        None => 1..=1,
    };
    let named = |name: &str| words.iter().any(|word| word == name);
    let any_named = suites::all().iter().any(|(name, _)| named(name));
    for seed in seeds {
        for (name, suite) in suites::all() {
            if any_named && !named(name) {
                continue;
            }
            match suite(&Run { seed, long }) {
                Ok(line) => println!("{name}: {line} (seed {seed})"),
                Err(mismatch) => {
                    println!("{name}: MISMATCH (seed {seed}) {mismatch}");
                    std::process::exit(1);
                }
            }
        }
    }
}
