//! Chains of calls with random cuts against one run, and from a fresh start against `search`; over few variables what they
//! find is the first satisfying assignment.

use super::least::Tally;
use super::resume::up_to_the_limit;
use super::states::{compare, cut, same, RESUME};
use super::{agree, shown};
use reference::random::Source;
use reference::random_state::{counters, Call, MOST};
use reference::resume::{resume, Position};
use reference::search::{Answer, End, Steps};

/// What calls with these cuts come to: the last answer, what is left, and how many were made.
pub struct Chain {
    pub last: Result<Answer, u32>,
    pub left: Call,
    pub made: usize,
}

/// Calls from a start on, up to an end or to the last cut. The first may be `search` itself, which starts from all open over
/// slices with anything in them.
pub fn calls(start: &Call, cuts: &[u64], search_first: bool) -> Chain {
    let (mut left, mut made, v) = (start.clone(), 0, start.v as usize);
    let mut last = Ok(Answer { end: End::Spent, steps: Steps::default() });
    if search_first {
        left.values[..v].fill(7);
        left.trail[..v].fill(-7);
        last = library::search(&start.list, start.v, &mut left.values, &mut left.trail, cuts[0]);
        let length = left.trail[..v].iter().take_while(|&&word| word != 0).count();
        left.position = Position { length, steps: last.map_or(Steps::default(), |answer| answer.steps) };
        made = 1;
    }
    while made < cuts.len() && last.is_ok_and(|answer| answer.end == End::Spent) {
        left.budget = cuts[made];
        last = left.make(library::resume);
        made += 1;
    }
    Chain { last, left, made }
}

/// Where a chain starts, and what its calls are allowed.
struct Start {
    call: Call,
    cuts: Vec<u64>,
    /// A fresh start, whatever the counters.
    fresh: bool,
    /// The counters and all cuts together come to exactly 2^64 - 1.
    at_the_limit: bool,
}

/// A fresh start or a state not reached; counters of 0, any, or as many as the cuts let pass.
fn some_start(source: &mut Source, list: &[i32], v: u32) -> Start {
    let cuts: Vec<u64> = (0..source.between(1, 12)).map(|_| cut(source, list, v)).collect();
    let (fresh, counts) = (source.chance(3, 4), source.below(4));
    let mut call = match fresh {
        true => Call::fresh(source, list, v),
        false => Call::unreached(source, list, v),
    };
    match counts {
        0 => call.position.steps = up_to_the_limit(source, cuts.iter().sum()),
        1 => call.position.steps = counters(source),
        _ => {}
    }
    Start { call, cuts, fresh, at_the_limit: counts == 0 }
}

/// A chain over a list against one run of both sides with the steps allowed in all; from a fresh start against `search`
/// and, where it has several calls, brute force too. The end, and the number of calls.
pub fn chain(
    source: &mut Source,
    list: &[i32],
    v: u32,
    number: u64,
    tally: &mut Tally,
) -> Result<(End, usize), String> {
    let Start { call: start, cuts, fresh, at_the_limit } = some_start(source, list, v);
    let before = start.position.steps;
    let search_first = fresh && before == Steps::default() && source.chance(2, 3);
    let Chain { last, left, made } = calls(&start, &cuts, search_first);
    let allowed = cuts[..made].iter().sum();
    let asked = || format!("case {number}, v {v}, cuts {cuts:?}, {:?}, list {}", start.position, shown(list));
    let answer = last.map_err(|number| format!("refused {number}: {}", asked()))?;
    for side in [resume, library::resume] {
        let mut one = Call { budget: allowed, ..start.clone() };
        agree(last, one.make(side), asked)?;
        same(&left, &one, asked)?;
    }
    if fresh {
        let mut one = start.clone();
        let searched = library::search(list, v, &mut one.values, &mut one.trail, allowed);
        agree(last, searched.map(|Answer { end, steps }| Answer { end, steps: before + steps }), asked)?;
        agree((&left.values, &left.trail), (&one.values, &one.trail), asked)?;
        if made > 1 {
            tally.compare_list((list, v), (answer.end, answer.steps.turns - before.turns), &left.values, asked)?;
        }
    }
    if at_the_limit {
        // all that is left, and one more
        let rest = (u128::from(MOST) - answer.steps.sum()) as u64;
        for budget in [rest, rest + 1] {
            compare(RESUME, &Call { budget, ..left.clone() }, || format!("at the end of a chain, {}", asked()))?;
        }
    }
    Ok((answer.end, made))
}
