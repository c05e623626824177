//! Long runs: searches of some 100,000 steps, in slices of few steps and many by resumed calls, against the reference slice by slice, and in
//! one run. Some of the lists are padded to the most words that an index is made for, and past it (`ways.rs`).

use super::indexes::LIMIT;
use super::states::{same, RESUME};
use super::{agree, covered};
use crate::{Outcome, Run};
use reference::clauses::translate;
use reference::large_sheets::{nested, orders, transition, Orders};
use reference::long_search::{long, of_15_625};
use reference::random::Source;
use reference::random_list::{padded, three_each, Padding};
use reference::random_state::Call;
use reference::search::{Answer, End, Steps};
use reference::sheet::Sheet;

/// The steps of a run that are waited for.
const MOST: u64 = 130_000;

/// A list, the words that it is padded to, and what is known of its search by hand.
struct Long {
    name: &'static str,
    list: Vec<i32>,
    v: u32,
    words: usize,
    end: Option<End>,
    steps: Option<u128>,
}

fn of_sheet(name: &'static str, sheet: &Sheet, end: End) -> Long {
    let clauses = translate(sheet).expect("a list");
    let list = clauses.words();
    Long { name, v: clauses.variables, words: list.len(), list, end: Some(end), steps: None }
}

fn of_variables(source: &mut Source, name: &'static str, v: usize) -> Long {
    let list = three_each(source, v, 43 * v / 10);
    Long { name, v: v as u32, words: list.len(), list, end: None, steps: None }
}

fn lists(source: &mut Source) -> Vec<Long> {
    // the steps are those of `long_search.rs`
    let sets = |sheet: &Sheet, end, steps| Long { steps: Some(steps), ..of_sheet("sets", sheet, end) };
    let all = || sets(&of_15_625(3, 0), End::None, 125_000);
    vec![
        all(),
        Long { words: LIMIT, ..all() },
        Long { words: LIMIT + 1, ..sets(&of_15_625(1, 2), End::None, 31_252) },
        sets(&long(&[(7, 0), (6, 0)], 3, true), End::Found, 81_923 + 8 + 13),
        of_sheet("nested quantifiers", &nested(6), End::None),
        of_sheet("orders", &orders(4, Orders::Same), End::None),
        of_sheet("transition relation", &transition(4, false), End::None),
        of_variables(source, "80 variables", 80),
        of_variables(source, "100 variables", 100),
    ]
}

pub fn run(run: &Run) -> Outcome {
    let (mut ends, mut steps, mut calls, mut runs) = ([0; 3], Steps::default(), 0, 0);
    for number in run.cases(1) {
        let source = &mut Source::new(run.seed, "long runs", number);
        for long in lists(source) {
            let (answer, made) = compare(source, &long, number)?;
            ends[answer.end as usize] += 1;
            steps = steps + answer.steps;
            (calls, runs) = (calls + made, runs + 1);
        }
    }
    covered(&[("found", ends[0]), ("none", ends[1])], 1)?;
    let Steps { forces, choices, turns } = steps;
    let kinds = [("a force", forces), ("a choice", choices), ("a turn", turns)];
    covered(&kinds.map(|(kind, times)| (kind, times as usize)), 50_000)?;
    let [found, none, spent] = ends;
    let steps = format!("{forces} forces, {choices} choices and {turns} turns");
    Ok(format!("{runs} runs of {steps} agree, in {calls} slices and in one: {found} found, {none} none, {spent} spent"))
}

/// A run in slices by both sides, the library's over the padded list, and the same in one by `search`: the answer, and the slices.
fn compare(source: &mut Source, long: &Long, number: u64) -> Result<(Answer, usize), String> {
    let Long { name, list, v, words, .. } = long;
    let mut theirs = Call::fresh(source, list, *v);
    let mut ours = Call { list: padded(source, list, *v, *words, Padding::Between), ..theirs.clone() };
    let (mut last, mut left, mut cuts) = (Answer { end: End::Spent, steps: Steps::default() }, MOST, Vec::new());
    while last.end == End::Spent && left > 0 {
        let budget = source.pick(&[1, 7, 50, 400, 3_000, 20_000]).min(left);
        cuts.push(budget);
        left -= budget;
        (ours.budget, theirs.budget) = (budget, budget);
        let asked = || format!("case {number}, {name}, {words} words, cuts {cuts:?}");
        let want = theirs.make(RESUME.reference);
        agree(ours.make(RESUME.library), want, asked)?;
        same(&ours, &theirs, asked)?;
        last = want.map_err(|number| format!("refused {number}: {}", asked()))?;
    }
    let asked = || format!("case {number}, {name}, {words} words, in one run of {} steps", MOST - left);
    ours.values[..*v as usize].fill(7);
    ours.trail[..*v as usize].fill(-7);
    let got = library::search(&ours.list, *v, &mut ours.values, &mut ours.trail, MOST - left);
    agree(got, Ok(last), asked)?;
    same(&ours, &theirs, asked)?;
    let known = (long.end.unwrap_or(last.end), long.steps.unwrap_or(last.steps.sum()));
    agree((last.end, last.steps.sum()), known, || format!("by hand, {}", asked()))?;
    Ok((last, cuts.len()))
}
