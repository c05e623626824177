//! A stopped search taken up again: chains of calls (`chains.rs`), damaged states, states that no search leaves, calls
//! after an end, counters from 0, from anything and up to 2^64 - 1. Answers, slices, what is behind them and the record are
//! compared each time (`states.rs`). A caller in C is in `callers.rs`.

use super::chains::chain;
use super::least::Tally as LeastTally;
use super::limits::is_limited;
use super::search::some_list;
use super::states::{compare, counted, cut, damaged, others, same, RESUME, TALLY};
use super::{agree, callers, covered, shown};
use crate::{Outcome, Run};
use reference::random::Source;
use reference::random_state::{counters, spreads, Call, MOST};
use reference::resume::Position;
use reference::search::{search, Answer, End, Steps};

pub fn run(run: &Run) -> Outcome {
    marked()?;
    let (mut tally, mut calls, mut chained, mut ended) = (TALLY, 0, [0; 3], 0);
    let (mut least, mut limited) = (LeastTally::default(), 0);
    for number in run.cases(1_500) {
        let source = &mut Source::new(run.seed, "resume, chains", number);
        let (list, v) = some_list(source, number);
        limited += usize::from(is_limited(&list));
        let (end, made) = chain(source, &list, v, number, &mut least)?;
        chained[end as usize] += 1;
        calls += made;
        ended += usize::from(after_an_end(source, &list, v, number)?);
    }
    for number in run.cases(100) {
        let source = &mut Source::new(run.seed, "resume, damage", number);
        damaged(RESUME, source, &mut tally, number, &[0, 1, 5, 10, 20, 50])?;
    }
    for number in run.cases(3_000) {
        let source = &mut Source::new(run.seed, "resume, any state", number);
        let (list, v) = some_list(source, number);
        let mut call = Call::unreached(source, &list, v);
        call.budget = cut(source, &list, v);
        if number % 4 == 0 {
            call.position.steps = up_to_the_limit(source, call.budget);
        }
        counted(RESUME, &call, &mut tally, || format!("case {number}, a state not reached"))?;
    }
    covered(&tally, 50)?;
    covered(&[("found by a chain", chained[0]), ("none", chained[1]), ("spent", chained[2]), ("an end", ended)], 100)?;
    least.covered(30, 15)?;
    covered(&[("a list of a limited sheet", limited)], 30)?;
    let callers = callers::run(run)?;
    let limited = format!("{limited} over lists of sheets with a limited sort");
    let chains = format!("{}, {limited}, of several calls {}", chains(chained, calls), least.said());
    Ok(format!("{chains}; {ended} taken up after an end; {}; {callers}", others(&tally)))
}

/// What is said of the chains.
fn chains([found, none, spent]: [usize; 3], calls: usize) -> String {
    let all = found + none + spent;
    format!("{all} chains of {calls} calls come to one run: {found} found, {none} none, {spent} spent")
}

/// Counters by hand: (1 2) (1 -2) (-1 2) (-1 -2) is none after a choice, a force, a turn and a force. One step at a time, and
/// once more after the "none".
fn marked() -> Result<(), String> {
    let list = [2, 1, 2, 2, 1, -2, 2, -1, 2, 2, -1, -2];
    for before in [Steps::default(), Steps::new(10, 200, 3_000), Steps::new(1 << 40, 1, 1 << 33)] {
        let (mut values, mut trail, mut position) = ([2; 2], [0; 2], Position { length: 0, steps: before });
        let after = [(0, 1, 0), (1, 1, 0), (1, 1, 1), (2, 1, 1), (2, 2, 1), (3, 2, 1), (3, 2, 2), (4, 2, 2)];
        for (call, (forces, choices, turns)) in after.into_iter().enumerate() {
            let steps = before + Steps::new(forces, choices, turns);
            let (end, length) = [(End::Spent, 1), (End::Spent, 2), (End::Spent, 1), (End::None, 0)][call % 4];
            let got = library::resume(&list, 2, &mut values, &mut trail, &mut position, 1);
            let want = (Ok(Answer { end, steps }), Position { length, steps });
            agree((got, position), want, || format!("marked, call {call} from {before:?}"))?;
        }
    }
    Ok(())
}

/// Counters, in any way, that come to exactly 2^64 - 1 with the steps allowed.
pub fn up_to_the_limit(source: &mut Source, allowed: u64) -> Steps {
    let spreads = spreads(source, MOST - allowed);
    source.pick(&spreads)
}

/// What the reference answers from a fresh start, with other steps done before.
fn from_start(list: &[i32], v: u32, budget: u64, before: Steps) -> Answer {
    let (mut values, mut trail) = (vec![0; v as usize], vec![0; v as usize]);
    let Answer { end, steps } = search(list, v, &mut values, &mut trail, budget).expect("a good list");
    Answer { end, steps: before + steps }
}

/// Calls on what "found" and "none" left, of both sides: "found" is found at once and nothing changes; "none" is searched for
/// anew, and each counter goes on counting. False where the search does not end soon enough.
fn after_an_end(source: &mut Source, list: &[i32], v: u32, number: u64) -> Result<bool, String> {
    let most = if v > 400 { 10 } else { 200_000 / (1 + list.len() as u64) };
    let before = if source.chance(1, 2) { counters(source) } else { Steps::default() };
    let mut call = Call { budget: most, ..Call::fresh(source, list, v).after(before) };
    let answer = call.make(library::resume).map_err(|number| format!("refused {number}"))?;
    let asked = || format!("case {number}, {:?} from {before:?}, v {v}, list {}", answer.end, shown(list));
    agree(answer, from_start(list, v, most, before), asked)?;
    if answer.end == End::Spent {
        return Ok(false);
    }
    let total = (answer.steps.sum() - before.sum()) as u64;
    for budget in [0, 1, total.saturating_sub(1), total, most] {
        let mut again = Call { budget, ..call.clone() };
        let asked = || format!("taken up again, {}", asked());
        compare(RESUME, &again, asked)?;
        // from a fresh start with 0 in the counters, each of them doubles
        let want = match answer.end {
            End::None => from_start(list, v, budget, answer.steps),
            _ => answer,
        };
        agree(again.make(library::resume), Ok(want), asked)?;
        if want.end != End::Spent {
            let left = Call { position: Position { steps: want.steps, ..call.position }, ..call.clone() };
            same(&again, &left, asked)?;
        }
    }
    Ok(true)
}
