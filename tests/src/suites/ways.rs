//! The two ways of the search: over a list of at most so many words by an index of it, which a call makes after its first steps; over a
//! longer one by scans alone. Lists that are padded up to the limit and past it with clauses that change no step are searched as they are
//! without them: by `search` with budgets around the first steps, by chains of resumed calls, from other states, and for the next.

use super::agree;
use super::indexes::{Case, Tally, LIMIT};
use super::search::some_list;
use super::states::{said_of, same, Sides, NEXT, RESUME};
use crate::{Outcome, Run};
use reference::random::Source;
use reference::random_list::{knotted, padded, turning, Padding};
use reference::random_state::{counters, Call};
use reference::search::{search, Answer, End, Steps, CHOSEN, TRUE};

pub fn run(run: &Run) -> Outcome {
    (0..3).try_for_each(|more| by_hand(LIMIT + more - 1))?;
    let mut tally = Tally::nothing();
    for number in run.cases(240) {
        let source = &mut Source::new(run.seed, "ways", number);
        let case = some_case(source, number);
        let mut indexed = searches(&case, &mut tally)?;
        indexed |= chain(source, &case, &mut tally)?;
        indexed |= states(source, &case, &mut tally)?;
        indexed |= nexts(source, &case, &mut tally)?;
        tally.list(&case, indexed);
    }
    tally.covered()?;
    Ok(tally.said())
}

/// By hand, over a list of so many words: units for one variable after another; one clause with each variable, and some twice; and one with a
/// single literal.
fn by_hand(words: usize) -> Result<(), String> {
    let (units, v) = (words as i32 / 2, 16_000);
    let mut list: Vec<i32> = (1..=units).flat_map(|variable| [1, variable]).collect();
    if words % 2 == 1 {
        list.splice(..2, [2, 1, 1]);
    }
    // true up to the last unit, and false by choice after it
    let trail = (1..=v).map(|variable| if variable <= units { variable } else { -variable }).collect();
    searched(&list, trail, Steps::new(units as u64, (v - units) as u64, 0), "units")?;
    let mut list = vec![words as i32 - 1];
    list.extend((1..words as i32).map(|place| (place - 1) % v + 1));
    let trail = (1..=v).map(|variable| if variable == v { variable } else { -variable }).collect();
    searched(&list, trail, Steps::new(1, v as u64 - 1, 0), "each variable")?;
    let mut list = vec![17; words];
    list[0] = words as i32 - 1;
    let trail = [17].into_iter().chain((1..=40).filter(|&variable| variable != 17).map(|variable| -variable)).collect();
    searched(&list, trail, Steps::new(1, 39, 0), "a single literal")
}

/// That a list is found with this trail after these steps: what is false there is so by choice.
fn searched(list: &[i32], want: Vec<i32>, steps: Steps, what: &str) -> Result<(), String> {
    let mut set = vec![CHOSEN; want.len()];
    want.iter().filter(|&&literal| literal > 0).for_each(|&literal| set[literal as usize - 1] = TRUE);
    let (mut values, mut trail) = (vec![7; want.len()], vec![-7; want.len()]);
    let got = library::search(list, want.len() as u32, &mut values, &mut trail, 1_000_000);
    let asked = || format!("by hand, {what}, {} words", list.len());
    agree(got, Ok(Answer { end: End::Found, steps }), asked)?;
    agree((values, trail), (set, want), asked)
}

/// A list with many steps, or one of suite `search`; as it is, some words longer, up to the limit, past it.
fn some_case(source: &mut Source, number: u64) -> Case {
    let (plain, v) = match number % 4 {
        0 | 1 => knotted(source),
        2 => turning(source),
        _ => some_list(source, number),
    };
    let few = source.between(3, 9);
    let longer = plain.len() + source.between(3, 4_000);
    let past = LIMIT + source.between(1, 2_000);
    let words = match number / 4 % 8 {
        0 => plain.len(),
        1 | 2 => longer,
        3 | 4 => LIMIT,
        5 => LIMIT - few,
        6 => LIMIT + source.between(1, 3),
        _ => past,
    };
    // the list of a sheet may be longer by itself
    let words = if words < plain.len() + 3 { plain.len() } else { words };
    let padding = source.pick(&[Padding::Front, Padding::Behind, Padding::Between, Padding::Between]);
    let padded = padded(source, &plain, v, words, padding);
    Case { plain, padded, v, number, padding }
}

/// The search of the padded list, stopped at each of some numbers of steps, against the reference's of the list alone, which goes on from one to
/// the other. Whether one had an index.
fn searches(case: &Case, tally: &mut Tally) -> Result<bool, String> {
    let (first, most) = (case.first_steps(), case.most());
    let around = first.saturating_sub(3)..first + 4;
    let stops = [0, 1].into_iter().chain(around).chain([first + 64]).chain([most]).filter(|&stop| stop <= most);
    let mut theirs = Call::fresh(&mut Source::new(0, "", 0), &case.plain, case.v);
    let (mut want, mut indexed) = (Answer { end: End::Spent, steps: Steps::default() }, false);
    for stop in stops {
        if want.end == End::Spent {
            theirs.budget = stop.saturating_sub(want.steps.sum() as u64);
            want = theirs.make(RESUME.reference).map_err(|number| format!("refused {number}"))?;
        }
        let mut ours = Call { budget: stop, list: case.padded.clone(), ..theirs.clone() };
        let v = case.v as usize;
        ours.values[..v].fill(7);
        ours.trail[..v].fill(-7);
        let got = library::search(&ours.list, ours.v, &mut ours.values, &mut ours.trail, stop);
        let asked = || case.asked(&format!("search with budget {stop}"));
        agree(got, Ok(want), asked)?;
        agree((&ours.values, &ours.trail), (&theirs.values, &theirs.trail), asked)?;
        if is_short(case, stop) {
            let (mut values, mut trail) = (ours.values.clone(), ours.trail.clone());
            values[..v].fill(7);
            trail[..v].fill(-7);
            agree(search(&case.padded, case.v, &mut values, &mut trail, stop), got, || format!("padded, {}", asked()))?;
            agree((values, trail), (ours.values, ours.trail), asked)?;
        }
        let fresh = Call { budget: stop, ..Call::fresh(&mut Source::new(0, "", 0), &case.plain, case.v) };
        indexed |= tally.call(case, &fresh, want, 0);
    }
    Ok(indexed)
}

/// Whether the reference goes over the padded list too, which is slow: in half of the cases, where there are few steps.
fn is_short(case: &Case, steps: u64) -> bool {
    case.number / 32 % 2 == 0 && steps * case.padded.len() as u64 <= 400_000
}

/// A call that takes a search up, and its place in `MET`.
type Kind = (Sides, usize);

const RESUMED: Kind = (RESUME, 1);
const FOR_NEXT: Kind = (NEXT, 2);

/// A call by the library over the padded list and by the reference over the list alone; if it is short by the reference over the padded
/// list too. The answer, what is left over the list alone, and whether it had an index.
fn both(
    case: &Case,
    (sides, kind): Kind,
    call: &Call,
    what: &str,
    tally: &mut Tally,
) -> Result<(Answer, Call, bool), String> {
    let (mut ours, mut theirs) = (Call { list: case.padded.clone(), ..call.clone() }, call.clone());
    let mut slow = ours.clone();
    let (got, want) = (ours.make(sides.library), theirs.make(sides.reference));
    let asked = || format!("{}, {}", case.asked(what), said_of(call));
    agree(got, want, asked)?;
    same(&ours, &theirs, asked)?;
    let answer = got.map_err(|number| format!("refused {number}: {}", asked()))?;
    let taken = (answer.steps.sum() - call.position.steps.sum()) as u64;
    if is_short(case, taken) {
        agree(slow.make(sides.reference), got, || format!("padded, {}", asked()))?;
        same(&ours, &slow, asked)?;
    }
    let indexed = tally.call(case, call, answer, kind);
    Ok((answer, theirs, indexed))
}

/// Resumed calls from the start on, with few steps and many, up to an end.
fn chain(source: &mut Source, case: &Case, tally: &mut Tally) -> Result<bool, String> {
    let mut call = Call::fresh(source, &case.plain, case.v);
    let (mut left, mut indexed) = (case.most(), false);
    while left > 0 {
        call.budget = source.pick(&[1, 7, 50, 400, 3_000]).min(left);
        left -= call.budget;
        let (answer, after, by_index) = both(case, RESUMED, &call, "chain", tally)?;
        indexed |= by_index;
        call = after;
        if answer.end != End::Spent {
            break;
        }
    }
    Ok(indexed)
}

/// Resumed calls and calls for the next from states that a search left, and that none leaves.
fn states(source: &mut Source, case: &Case, tally: &mut Tally) -> Result<bool, String> {
    let mut indexed = false;
    for round in 0..4 {
        let steps = source.pick(&[3, 20, 100, 1_000]).min(case.most());
        let mut call = match round {
            0 => Call::stopped(source, &case.plain, case.v, steps).after(counters(source)),
            _ => Call::unreached(source, &case.plain, case.v),
        };
        call.budget = source.pick(&[1, case.first_steps(), case.first_steps() + 1, case.most()]).min(case.most());
        for kind in [RESUMED, FOR_NEXT] {
            indexed |= both(case, kind, &call, "state", tally)?.2;
        }
    }
    Ok(indexed)
}

/// Calls for the next one after another.
fn nexts(source: &mut Source, case: &Case, tally: &mut Tally) -> Result<bool, String> {
    let mut call = Call::fresh(source, &case.plain, case.v);
    let (mut left, mut indexed) = (2 * case.most(), false);
    for _ in 0..30 {
        call.budget = source.pick(&[7, 400, 3_000, 3_000]).min(left);
        let (answer, after, by_index) = both(case, FOR_NEXT, &call, "next", tally)?;
        left = left.saturating_sub((answer.steps.sum() - call.position.steps.sum()) as u64);
        indexed |= by_index;
        call = after;
        if answer.end == End::None || left == 0 {
            break;
        }
    }
    Ok(indexed)
}
