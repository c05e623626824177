//! The call for the next: all instances of small sheets and all assignments of short lists, in order, each once (`walks.rs`);
//! states that are not full, full ones that no search leaves, damaged ones; calls spent on the way; a caller in C.

use super::clashes::{Met, Start};
use super::limits::Limits;
use super::resume::up_to_the_limit;
use super::search::some_list;
use super::states::{compare, counted, cut, damaged, others, same, NEXT, RESUME, TALLY};
use super::walks::{Walk, Walks};
use super::{agree, callers, covered, hex, shown};
use crate::{Outcome, Run};
use reference::brute::{assignments, instances};
use reference::random::Source;
use reference::random_list::{list, turning};
use reference::random_small::small;
use reference::random_state::{counters, Call};
use reference::resume::Position;
use reference::search::{self, settled, Answer, End, Steps};
use reference::sheet::{read, visits, Sheet};

/// Brute force goes through all instances of so many cells, and so many visits of nodes for all of them.
const CELLS: usize = 12;
const VISITS: u128 = 1 << 20;

pub fn run(run: &Run) -> Outcome {
    marked()?;
    let sheets = sheets(run)?;
    let lists = lists(run)?;
    let states = states(run)?;
    let mut tally = TALLY;
    for number in run.cases(60) {
        let source = &mut Source::new(run.seed, "next, damage", number);
        damaged(NEXT, source, &mut tally, number, &[0, 5, 20, 1_000, 1_000, 1_000])?;
    }
    any_states(run, &mut tally)?;
    covered(&tally, 50)?;
    let callers = callers::next(run)?;
    Ok(format!("{sheets}; {lists}; {states}; {}; {callers}", others(&tally)))
}

/// By hand: the three cases of K1, none, and from the start once more, with counters from 0 and from others.
fn marked() -> Result<(), String> {
    let list = [1, 1, 2, 4, -2, 2, 4, -3, 3, -4, 2, 3, 1, 4];
    let left: [(End, [u8; 4], [i32; 4], (u64, u64, u64)); 7] = [
        (End::Found, [1, 3, 1, 1], [1, 4, -2, 3], (3, 1, 0)),
        (End::Found, [1, 1, 3, 1], [1, 4, 2, -3], (3, 2, 1)),
        (End::Found, [1, 1, 1, 1], [1, 4, 2, 3], (3, 2, 2)),
        (End::None, [2; 4], [0; 4], (3, 2, 2)),
        (End::Found, [1, 3, 1, 1], [1, 4, -2, 3], (6, 3, 2)),
        (End::Found, [1, 1, 3, 1], [1, 4, 2, -3], (6, 4, 3)),
        (End::Found, [1, 1, 1, 1], [1, 4, 2, 3], (6, 4, 4)),
    ];
    for before in [Steps::default(), Steps::new(10, 200, 3_000), Steps::new(1 << 40, 1, 1 << 33)] {
        let (mut values, mut trail, mut position) = ([2; 4], [0; 4], Position { length: 0, steps: before });
        for (call, (end, want_values, want_trail, (forces, choices, turns))) in left.into_iter().enumerate() {
            let steps = before + Steps::new(forces, choices, turns);
            let length = if end == End::None { 0 } else { 4 };
            let got = library::next(&list, 4, &mut values, &mut trail, &mut position, 9);
            let want = (Ok(Answer { end, steps }), want_values, want_trail, Position { length, steps });
            agree((got, values, trail, position), want, || format!("marked, call {call} from {before:?}"))?;
        }
    }
    Ok(())
}

/// All instances of small sheets, over the list that the library writes and by its read-back.
fn sheets(run: &Run) -> Outcome {
    let mut tally = [("no instance", 0), ("one instance", 0), ("several", 0), ("more than twenty", 0)];
    let (mut walks, mut limits) = (Walks::nothing(), Limits::nothing());
    for case in run.cases(800) {
        let source = &mut Source::new(run.seed, "next, sheets", case);
        let sheet = small(source);
        let few = sheet.cells() <= CELLS && read(&sheet.bytes()).is_ok() && visits(&sheet) << sheet.cells() <= VISITS;
        if few {
            let wanted = instances(&sheet);
            let number = sheet_walk(source, &sheet, &wanted, case, &mut walks)?;
            limits.sheet(&sheet);
            wanted.iter().for_each(|cells| limits.instance(&sheet, cells));
            tally[number.min(2)].1 += 1;
            tally[3].1 += usize::from(number > 20);
        }
    }
    covered(&tally, 50)?;
    walks.covered(25)?;
    limits.covered(10, 50)?;
    let all: usize = tally[..3].iter().map(|(_, times)| times).sum();
    let kinds: Vec<String> = tally.iter().map(|(what, times)| format!("{times} with {what}")).collect();
    let limited = limits.said();
    Ok(format!("all instances of {all} sheets, {}: {}; {limited}", kinds.join(", "), walks.said()))
}

/// All instances of a sheet, which are these; their number.
fn sheet_walk(
    source: &mut Source,
    sheet: &Sheet,
    wanted: &[Vec<u8>],
    case: u64,
    walks: &mut Walks,
) -> Result<usize, String> {
    let (bytes, cells) = (sheet.bytes(), sheet.cells());
    let asked = || format!("case {case}, sheet {}", hex(&bytes));
    let refused = |number: u32| format!("refused {number}: {}", asked());
    let size = library::count(&bytes).map_err(refused)?;
    let mut list = vec![0; size.words as usize];
    library::write(&bytes, &mut list).map_err(refused)?;
    let read = |values: &[u8]| {
        let mut instance = vec![9; cells];
        library::read_back(&bytes, values, &mut instance).map(|_| instance)
    };
    let walk = Walk { list: &list, v: size.variables, wanted, read: &read, asked: &asked };
    walk.go(source, walks)?;
    Ok(wanted.len())
}

/// All satisfying assignments of short lists.
fn lists(run: &Run) -> Outcome {
    let mut tally = [("no assignment", 0), ("one assignment", 0), ("several", 0), ("more than twenty", 0)];
    let mut walks = Walks::nothing();
    for case in run.cases(800) {
        let source = &mut Source::new(run.seed, "next, lists", case);
        let (list, v) = if case % 2 == 0 { turning(source) } else { list(source) };
        if v > 14 {
            continue;
        }
        let wanted = assignments(v, &search::cut(&list, v).expect("a good list"));
        let asked = || format!("case {case}, v {v}, list {}", shown(&list));
        let read = |values: &[u8]| Ok(settled(values));
        Walk { list: &list, v, wanted: &wanted, read: &read, asked: &asked }.go(source, &mut walks)?;
        tally[wanted.len().min(2)].1 += 1;
        tally[3].1 += usize::from(wanted.len() > 20);
    }
    covered(&tally, 50)?;
    walks.covered(25)?;
    let all: usize = tally[..3].iter().map(|(_, times)| times).sum();
    Ok(format!("all assignments of {all} lists: {}", walks.said()))
}

/// States of all kinds under calls with few steps and many.
fn states(run: &Run) -> Outcome {
    let (mut met, mut as_resumed, mut in_parts) = (Met::nothing(), 0, 0);
    for case in run.cases(2_000) {
        let source = &mut Source::new(run.seed, "next, states", case);
        let (list, v) = some_list(source, case);
        let mut call = some_state(source, &list, v);
        for budget in [0, 1, cut(source, &list, v)] {
            call.budget = budget;
            let asked = || format!("case {case}, a state");
            let (start, left) = (Start::of(&call), compare(NEXT, &call, asked)?);
            met.call(start, &call, &left);
            if !start.is_full() {
                let resumed = compare(RESUME, &call, asked)?;
                agree(left.answer, resumed.answer, || format!("next and resume, {}", asked()))?;
                same(&left.call, &resumed.call, || format!("next and resume, {}", asked()))?;
                as_resumed += 1;
            }
        }
        in_parts += usize::from(parts(source, &call, case)?);
    }
    covered(met.tally(), 30)?;
    covered(&[("as the resumed call", as_resumed), ("a call in parts", in_parts)], 100)?;
    let said = met.said();
    Ok(format!("from other states {said}; {as_resumed} as the resumed call; {in_parts} in parts come to one"))
}

/// What a search left after few steps or at its end, what no search leaves, or an assignment of the list set in any order.
fn some_state(source: &mut Source, list: &[i32], v: u32) -> Call {
    let all = if v <= 10 { assignments(v, &search::cut(list, v).expect("a good list")) } else { Vec::new() };
    let steps = source.pick(&[0, 3, 10, 100, 100]);
    match source.below(4) {
        0 => Call::unreached(source, list, v),
        1 => Call::stopped(source, list, v, if v > 400 { 10 } else { steps }),
        _ if all.is_empty() => Call::unreached(source, list, v),
        _ => {
            let assignment = source.pick(&all);
            Call::full(source, list, v, &assignment)
        }
    }
}

/// A call from a full assignment that is spent and taken up, again and again, against one with all their steps. False where it
/// starts on another state, or is not spent.
fn parts(source: &mut Source, start: &Call, case: u64) -> Result<bool, String> {
    if !Start::of(start).is_full() {
        return Ok(false);
    }
    let (mut call, mut cuts) = (start.clone(), Vec::new());
    let last = loop {
        call.budget = if cuts.len() > 20 { 100 } else { source.pick(&[0, 1, 1, 2, 5]) };
        cuts.push(call.budget);
        let answer = call.make(library::next);
        let spent = answer.is_ok_and(|answer| answer.end == End::Spent);
        if !spent || cuts.len() == 30 {
            break answer;
        }
    };
    let mut one = Call { budget: cuts.iter().sum(), ..start.clone() };
    let asked = || format!("case {case}, in parts {cuts:?}, {:?}, list {}", start.position, shown(&start.list));
    agree(last, one.make(library::next), asked)?;
    same(&call, &one, asked)?;
    Ok(cuts.len() > 1)
}

/// States that no search leaves, full ones among them, with counters of 0, of anything and up to the limit.
fn any_states(run: &Run, tally: &mut super::states::Tally) -> Result<(), String> {
    for number in run.cases(2_000) {
        let source = &mut Source::new(run.seed, "next, any state", number);
        let (list, v) = some_list(source, number);
        let mut call = some_state(source, &list, v);
        call.position.steps = counters(source);
        call.budget = cut(source, &list, v);
        if number % 2 == 0 {
            call.position.steps = up_to_the_limit(source, call.budget);
        }
        counted(NEXT, &call, tally, || format!("case {number}, any state"))?;
    }
    Ok(())
}
