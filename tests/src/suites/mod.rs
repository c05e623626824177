//! One module for each suite.

use crate::{Outcome, Run};
use std::fmt::Debug;

mod callers;
mod chains;
mod check;
mod clashes;
mod commands;
mod count;
mod dimacs;
mod earlier;
mod every;
mod failures;
mod indexes;
mod least;
mod lengths;
mod limits;
mod long_runs;
mod next;
mod onward;
mod programs;
mod read;
mod read_backs;
mod resume;
mod search;
mod solve;
mod solvers;
mod stack;
mod states;
mod walks;
mod ways;

type Suite = fn(&Run) -> Outcome;

/// The suites, in order.
pub fn all() -> Vec<(&'static str, Suite)> {
    vec![
        ("solvers", solvers::run as Suite),
        ("read", read::run),
        ("check", check::run),
        ("count", count::run),
        ("search", search::run),
        ("resume", resume::run),
        ("next", next::run),
        ("ways", ways::run),
        ("long_runs", long_runs::run),
        ("dimacs", dimacs::run),
        ("solve", solve::run),
        ("programs", programs::run),
        ("onward", onward::run),
        ("every", every::run),
        ("failures", failures::run),
        ("stack", stack::run),
    ]
}

/// Bytes in hexadecimal, as a mismatch shows its sheet.
pub fn hex(bytes: &[u8]) -> String {
    bytes.iter().map(|byte| format!("{byte:02x}")).collect()
}

/// A list as a mismatch shows it; a long one is cut, since the seed and the case give it anew.
pub fn shown(list: &[i32]) -> String {
    match list.len() {
        0..=300 => format!("{list:?}"),
        words => format!("{words} words, the first {:?}", &list[..300]),
    }
}

/// Two answers that must be equal. `case` says what they were asked.
pub fn agree<T: PartialEq + Debug>(got: T, want: T, case: impl FnOnce() -> String) -> Result<(), String> {
    if got == want {
        Ok(())
    } else {
        let cut = |text: String| text.chars().take(2_000).collect::<String>();
        let (got, want) = (cut(format!("{got:?}")), cut(format!("{want:?}")));
        Err(format!("{}\n  got  {got}\n  want {want}", case()))
    }
}

/// That a suite met enough of each kind of answer.
pub fn covered(tally: &[(&str, usize)], least: usize) -> Result<(), String> {
    match tally.iter().find(|(_, times)| *times < least) {
        Some((what, times)) => Err(format!("{what} was met {times} times only; {least} are wanted")),
        None => Ok(()),
    }
}
