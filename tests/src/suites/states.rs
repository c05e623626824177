//! Calls that take a search up, made by both sides over slices of their own: answers, slices, what is behind them and the
//! record are compared, and what was met is counted. States that a search left with each damage at the edges of 14.

use super::search::some_list;
use super::{agree, shown};
use reference::next::next;
use reference::random::Source;
use reference::random_list::{budget, damage};
use reference::random_state::{counters, damages, Call, Resume, HALF, MOST};
use reference::resume::{faults, resume, Fault};
use reference::search::{Answer, Steps};
use reference::sheet::{LIST, STATE};

/// The same call of the reference and of the library.
#[derive(Clone, Copy)]
pub struct Sides {
    pub reference: Resume,
    pub library: Resume,
}

pub const RESUME: Sides = Sides { reference: resume, library: library::resume };
pub const NEXT: Sides = Sides { reference: next, library: library::next };

/// How often each end and each number was met; 14 by each of its conditions alone, in the order of `Fault`. Then, of the same
/// calls, what they took and met of the counters.
pub type Tally = [(&'static str, usize); OUTCOMES + 7];

pub const OUTCOMES: usize = 14;

pub const TALLY: Tally = [
    ("found", 0),
    ("none", 0),
    ("spent", 0),
    ("number 12", 0),
    ("number 13", 0),
    ("14 for the length", 0),
    ("14 for a range", 0),
    ("14 for a repeat", 0),
    ("14 for a value", 0),
    ("14 for a byte", 0),
    ("14 for a word", 0),
    ("14 for the steps", 0),
    ("14 for more than one", 0),
    ("12 or 13 beside 14", 0),
    ("14 for the counters without a budget", 0),
    ("forces from counters that are not 0", 0),
    ("choices from such", 0),
    ("turns from such", 0),
    ("forces at the limit", 0),
    ("choices at the limit", 0),
    ("turns at the limit", 0),
];

/// What is said of the other states.
pub fn others(tally: &Tally) -> String {
    let all: usize = tally[..OUTCOMES].iter().map(|(_, times)| times).sum();
    let shown = |part: &[(&str, usize)]| {
        let times: Vec<String> = part.iter().map(|(what, times)| format!("{times} {what}")).collect();
        times.join(", ")
    };
    format!("{all} other states: {}; among them {}", shown(&tally[..OUTCOMES]), shown(&tally[OUTCOMES..]))
}

/// Steps to allow: none, one, few, many; few over a long list.
pub fn cut(source: &mut Source, list: &[i32], v: u32) -> u64 {
    let most = if v > 400 { 10 } else { 100_000 / (1 + list.len() as u64) };
    let few = source.below(20) as u64;
    if source.chance(1, 8) {
        budget(source).min(1_000).min(most)
    } else {
        source.pick(&[0, 1, 1, few, few, 50]).min(most)
    }
}

/// That two calls left the same: slices to their ends, and the record.
pub fn same(got: &Call, want: &Call, asked: impl Fn() -> String) -> Result<(), String> {
    agree(&got.values, &want.values, &asked)?;
    agree(&got.trail, &want.trail, &asked)?;
    agree(got.position, want.position, &asked)
}

/// What a call answered, and what it left.
pub struct Left {
    pub answer: Result<Answer, u32>,
    pub call: Call,
}

/// A call as a mismatch shows it.
pub fn said_of(Call { list, v, values, trail, position, budget }: &Call) -> String {
    let state = format!("{position:?}, values {values:?}, trail {trail:?}");
    let state: String = state.chars().take(2_000).collect();
    format!("v {v}, budget {budget}, {state}, list {}", shown(list))
}

/// A call by both sides over slices of their own, and what the library's answered and left.
pub fn compare(sides: Sides, call: &Call, what: impl Fn() -> String) -> Result<Left, String> {
    let (mut ours, mut theirs) = (call.clone(), call.clone());
    let want = theirs.make(sides.reference);
    let got = ours.make(sides.library);
    let asked = || format!("{}, {}", what(), said_of(call));
    agree(got, want, asked)?;
    same(&ours, &theirs, asked)?;
    if want.is_err() {
        same(&ours, call, || format!("changed under a refusal: {}", asked()))?;
    }
    Ok(Left { answer: got, call: ours })
}

/// The same, and what it met is counted.
pub fn counted(sides: Sides, call: &Call, tally: &mut Tally, what: impl Fn() -> String) -> Result<Left, String> {
    let left = compare(sides, call, what)?;
    tally[met(call, left.answer)].1 += 1;
    counters_met(call, left.answer).into_iter().for_each(|place| tally[place].1 += 1);
    Ok(left)
}

/// The places in the tally of what a call met of the counters.
fn counters_met(call: &Call, answer: Result<Answer, u32>) -> Vec<usize> {
    let (before, most) = (call.position.steps, u128::from(MOST));
    let Ok(Answer { steps, .. }) = answer else {
        let alone = answer == Err(STATE) && met(call, answer) == 5 + Fault::Steps as usize && before.sum() > most;
        return if alone { vec![OUTCOMES] } else { Vec::new() };
    };
    let at_the_limit = before.sum() >= u128::from(HALF) && before.sum() + u128::from(call.budget) == most;
    let taken = [steps.forces > before.forces, steps.choices > before.choices, steps.turns > before.turns];
    let mut places = Vec::new();
    for kind in (0..3).filter(|&kind| taken[kind] && before != Steps::default()) {
        places.push(OUTCOMES + 1 + kind);
        places.extend(at_the_limit.then_some(OUTCOMES + 4 + kind));
    }
    places
}

/// The place in the tally of the answer to a call.
fn met(call: &Call, answer: Result<Answer, u32>) -> usize {
    let least = (call.v as usize).min(call.values.len()).min(call.trail.len());
    let faults = faults(&call.values[..least], &call.trail[..least], &call.position, call.budget);
    match (answer, faults.as_slice()) {
        (Ok(answer), _) => answer.end as usize,
        (Err(STATE), [fault]) => 5 + *fault as usize,
        (Err(STATE), _) => OUTCOMES - 2,
        (Err(_), [_, ..]) => OUTCOMES - 1,
        (Err(number), []) => 3 + usize::from(number != LIST),
    }
}

/// Two short clauses over many variables: the library takes another table beyond 256, and none has more than 16,000.
fn wide(v: u32) -> (Vec<i32>, u32) {
    let last = v as i32;
    (vec![2, 1, last, 2, -last, 2], v)
}

/// States that a search left after one of these numbers of steps, each with every damage alone, with some two at once, and with a 12 or a
/// 13 beside.
pub fn damaged(sides: Sides, source: &mut Source, tally: &mut Tally, number: u64, stops: &[u64]) -> Result<(), String> {
    let (list, v) = match number % 100 {
        15 => wide(256),
        30 => wide(257),
        45 | 90 => wide(16_000),
        _ => some_list(source, number),
    };
    let stop = source.pick(stops).min(if v > 400 { 10 } else { 1_000 });
    let mut call = match number % 10 {
        0 => Call::unreached(source, &list, v),
        _ => Call::stopped(source, &list, v, stop),
    };
    if number % 3 == 0 {
        call.position.steps = counters(source);
    }
    call.budget = cut(source, &list, v);
    for (what, call) in damages(source, &call) {
        with_more(sides, source, tally, &call, |more| format!("case {number}, {what}{more}"))?;
    }
    Ok(())
}

/// A damaged call, and at times the same with a second damage, and with a 12 or a 13.
fn with_more(
    sides: Sides,
    source: &mut Source,
    tally: &mut Tally,
    call: &Call,
    asked: impl Fn(&str) -> String,
) -> Result<(), String> {
    counted(sides, call, tally, || asked(""))?;
    let (length, v) = (call.position.length, call.v as usize);
    if length <= v && source.chance(1, if v > 400 { 40 } else { 3 }) {
        let more = damages(source, call);
        let (second, call) = source.pick(&more);
        counted(sides, &call, tally, || asked(&format!(", {second}")))?;
    }
    if source.chance(1, 2) {
        let mut call = call.clone();
        match source.below(3) {
            0 => call.values.truncate(v - 1),
            1 => call.trail.truncate(v - 1),
            _ => damage(source, &mut call.list, &mut call.v),
        }
        counted(sides, &call, tally, || asked(", and 12 or 13"))?;
    }
    Ok(())
}
