//! Callers in C: a search in slices (`c/resume.c`), and all that is found, one after another (`c/next.c`), print what they print
//! by many steps at a time, which is what the reference leaves.

use super::{agree, covered, shown};
use crate::Run;
use reference::brute::first_assignments;
use reference::random::Source;
use reference::random_list::{list, turning};
use reference::random_state::Call;
use reference::resume::resume;
use reference::search::{cut, Answer, End, Steps};
use std::io::Write;
use std::process::{Command, Stdio};

/// What a program prints for a list, by so many steps at a time.
fn program(name: &str, slice: u64, v: u32, list: &[i32]) -> Result<String, String> {
    let mut command = Command::new(format!("target/tests/{name}"));
    command.arg(slice.to_string()).stdin(Stdio::piped()).stdout(Stdio::piped());
    let mut child = command.spawn().map_err(|error| format!("{name}: {error}"))?;
    let words: Vec<String> = list.iter().map(|word| word.to_string()).collect();
    let mut stdin = child.stdin.take().expect("a pipe");
    stdin.write_all(format!("{v} {}\n", words.join(" ")).as_bytes()).map_err(|error| error.to_string())?;
    drop(stdin);
    let output = child.wait_with_output().map_err(|error| error.to_string())?;
    if !output.status.success() {
        return Err(format!("{name}: {}", output.status));
    }
    String::from_utf8(output.stdout).map_err(|error| error.to_string())
}

/// Three counters as the program prints them.
fn counters(Steps { forces, choices, turns }: Steps) -> String {
    format!("{forces} {choices} {turns}\n")
}

/// What it should print, and the answer.
fn wanted(v: u32, list: &[i32]) -> (String, Answer) {
    let mut call = Call { budget: u64::MAX, ..Call::fresh(&mut Source::new(0, "", 0), list, v) };
    let answer = call.make(resume).expect("a good list");
    (left(answer, &call) + &refused(&call), answer)
}

/// An answer, the record, values and trail.
fn left(answer: Answer, call: &Call) -> String {
    let mut text = format!("0 {} {}", 1 + answer.end as u32, counters(answer.steps));
    text += &format!("{} {}", call.position.length, counters(call.position.steps));
    for (value, word) in call.values.iter().zip(&call.trail).take(call.v as usize) {
        text += &format!("{value} {word}\n");
    }
    text
}

/// What is printed of a length beyond v.
fn refused(call: &Call) -> String {
    format!("14 0 0 0 0\n{} {}", call.v + 1, counters(call.position.steps))
}

pub fn run(run: &Run) -> Result<String, String> {
    let (mut found, mut none, mut each_kind) = (0, 0, 0);
    for case in run.cases(30) {
        let source = &mut Source::new(run.seed, "callers", case);
        let (list, v) = if case % 2 == 0 { turning(source) } else { list(source) };
        let (want, Answer { end, steps }) = wanted(v, &list);
        for slice in [0, 1, source.between(2, 9) as u64, 1_000_000] {
            agree(program("resume_c", slice, v, &list)?, want.clone(), || {
                format!("in C, case {case}, by {slice} steps, v {v}, list {}", shown(&list))
            })?;
        }
        *if end == End::Found { &mut found } else { &mut none } += 1;
        each_kind += usize::from(steps.forces.min(steps.choices).min(steps.turns) > 0);
    }
    covered(&[("found in C", found), ("none in C", none), ("steps of each kind in C", each_kind)], 5)?;
    Ok(format!("{} lists in C", found + none))
}

/// What `next` should print, and how many are found.
fn wanted_of_all(v: u32, list: &[i32]) -> (String, usize) {
    let mut call = Call { budget: 1_000_000_000, ..Call::fresh(&mut Source::new(0, "", 0), list, v) };
    let (mut text, mut found) = (String::new(), 0);
    loop {
        let answer = call.make(reference::next::next).expect("a good list");
        text += &left(answer, &call);
        if answer.end == End::None {
            return (text + &refused(&call), found);
        }
        found += 1;
    }
}

/// All that lists of few assignments have.
pub fn next(run: &Run) -> Result<String, String> {
    let mut tally = [("none in C", 0), ("one in C", 0), ("several in C", 0)];
    for case in run.cases(60) {
        let source = &mut Source::new(run.seed, "callers, next", case);
        let (list, v) = if case % 2 == 0 { turning(source) } else { list(source) };
        if v > 12 || first_assignments(v, &cut(&list, v).expect("a good list"), 200).len() == 200 {
            continue;
        }
        let (want, found) = wanted_of_all(v, &list);
        for slice in [0, 1, source.between(2, 9) as u64] {
            agree(program("next_c", slice, v, &list)?, want.clone(), || {
                format!("next in C, case {case}, by {slice} steps, v {v}, list {}", shown(&list))
            })?;
        }
        tally[found.min(2)].1 += 1;
    }
    covered(&tally, 2)?;
    Ok(format!("{} lists in C", tally.iter().map(|(_, times)| times).sum::<usize>()))
}
