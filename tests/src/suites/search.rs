//! The search: answer, steps of each kind, values and trail for random lists and lists of sheets, good and damaged,
//! with budgets of none, one, few and many; verdicts against minisat; over few variables what is found is the first
//! satisfying assignment.

use super::least::Tally;
use super::limits::is_limited;
use super::{agree, covered, shown};
use crate::solver::solve;
use crate::{Outcome, Run};
use reference::clauses::translate;
use reference::dimacs::text;
use reference::random::Source;
use reference::random_list::{budget, damage, list};
use reference::random_sheet::{gates_of, pigeonhole, sheet, style};
use reference::search::{search, Answer, End, Steps};
use reference::sheet::read;

/// Up to so many variables every search ends soon.
pub const FEW: u32 = 16;

const ENDS: [&str; 5] = ["found", "none", "spent", "number 12", "number 13"];

/// A case: a list, its variables, the lengths of values and trail, a budget.
struct Case {
    list: Vec<i32>,
    v: u32,
    values: usize,
    trail: usize,
    budget: u64,
}

/// A list with v and a budget, and what the paper's rules answer and leave.
struct Marked {
    list: &'static [i32],
    v: u32,
    budget: u64,
    end: End,
    steps: Steps,
    values: &'static [u8],
    trail: &'static [i32],
}

const K1: &[i32] = &[1, 1, 2, 4, -2, 2, 4, -3, 3, -4, 2, 3, 1, 4];
const K2: &[i32] = &[1, 1, 2, -2, -3, 2, 2, 3, 2, 4, -2, 2, 4, -3, 3, -4, 2, 3, 1, 4];
const K3: &[i32] = &[1, 1, 2, -2, -3, 2, 2, 3, 2, 4, -2, 2, 4, -3, 3, -4, 2, 3, 1, -4];

const fn marked(list: &'static [i32], v: u32, budget: u64) -> Marked {
    Marked { list, v, budget, end: End::Found, steps: K1_STEPS, values: &[1, 3, 1, 1], trail: &[1, 4, -2, 3] }
}

const K1_STEPS: Steps = Steps::new(3, 1, 0);

/// Those of K4: forces, choices and turns.
const K4_STEPS: Steps = Steps::new(2, 1, 0);

/// K1 to K4; both signs; a literal twice; no clause; a conflict after a choice, twice; the same with none at the end.
const MARKED: [Marked; 10] = [
    marked(K1, 4, 1_000_000),
    marked(K2, 4, 1_000_000),
    Marked { end: End::None, steps: Steps::new(4, 0, 0), values: &[2; 4], trail: &[0; 4], ..marked(K3, 4, 1_000_000) },
    Marked { end: End::Spent, steps: K4_STEPS, values: &[1, 3, 2, 1], trail: &[1, 4, -2, 0], ..marked(K1, 4, 3) },
    Marked { steps: Steps::new(1, 1, 0), values: &[1, 3], trail: &[1, -2], ..marked(&[1, 1, 2, 2, -2], 2, 9) },
    Marked { steps: Steps::new(1, 0, 0), values: &[1], trail: &[1], ..marked(&[2, 1, 1], 1, 9) },
    Marked { steps: Steps::new(0, 2, 0), values: &[3, 3], trail: &[-1, -2], ..marked(&[], 2, 9) },
    Marked { steps: Steps::new(1, 2, 1), values: &[1, 3], trail: &[1, -2], ..marked(&[2, 1, 2, 2, 1, -2], 2, 9) },
    Marked {
        steps: Steps::new(1, 3, 1),
        values: &[1, 3, 3],
        trail: &[1, -2, -3],
        ..marked(&[2, 1, 2, 2, 1, 3, 2, 1, -2], 3, 9)
    },
    Marked {
        end: End::None,
        steps: Steps::new(2, 1, 1),
        values: &[2; 2],
        trail: &[0; 2],
        ..marked(&[2, 1, 2, 2, 1, -2, 2, -1, 2, 2, -1, -2], 2, 9)
    },
];

fn compare_marked(case: &Marked) -> Result<(), String> {
    let (mut values, mut trail) = (vec![7; case.values.len()], vec![-7; case.trail.len()]);
    let got = library::search(case.list, case.v, &mut values, &mut trail, case.budget);
    let asked = || format!("marked list {}", shown(case.list));
    agree(got, Ok(Answer { end: case.end, steps: case.steps }), asked)?;
    agree(values.as_slice(), case.values, asked)?;
    agree(trail.as_slice(), case.trail, asked)
}

pub fn run(run: &Run) -> Outcome {
    MARKED.iter().try_for_each(compare_marked)?;
    let mut tally = ENDS.map(|end| (end, 0));
    let (mut solved, mut steps, mut least, mut limited) = (0, Steps::default(), Tally::default(), 0);
    for number in run.cases(4_000) {
        let source = &mut Source::new(run.seed, "search", number);
        let case = some_case(source, number);
        let (answer, values) = compare(&case, number)?;
        let end = place(answer);
        limited += usize::from(is_limited(&case.list) && end <= 2);
        tally[end].1 += 1;
        steps = steps + answer.map_or(Steps::default(), |answer| answer.steps);
        if let Ok(Answer { end, steps }) = answer {
            least.compare_list((&case.list, case.v), (end, steps.turns), &values, || asked(&case, number))?;
        }
        if end <= 1 && number % 50 == 0 {
            let text = text(&case.list, case.v).expect("a good list");
            let verdict = solve("minisat", text.as_bytes(), case.v)?;
            agree(end == 0, verdict.is_satisfiable(), || format!("case {number}, minisat on {}", shown(&case.list)))?;
            solved += 1;
        }
    }
    covered(&tally, 100)?;
    let Steps { forces, choices, turns } = steps;
    let kinds = [("a force", forces), ("a choice", choices), ("a turn", turns)];
    covered(&kinds.map(|(kind, times)| (kind, times as usize)), 300)?;
    least.covered(100, 50)?;
    covered(&[("a list of a limited sheet", limited)], 50)?;
    let all: usize = tally.iter().map(|(_, times)| times).sum();
    let times: Vec<String> = tally.iter().map(|(end, times)| format!("{times} {end}")).collect();
    let steps = format!("{forces} forces, {choices} choices and {turns} turns");
    let too = format!("{solved} verdicts of minisat too; {}", least.said());
    let limited = format!("{limited} lists of sheets with a limited sort");
    Ok(format!("{all} runs of {steps} agree: {}; {too}; {limited}", times.join(", ")))
}

/// A random list, or that of a random sheet, with its variables.
pub fn some_list(source: &mut Source, number: u64) -> (Vec<i32>, u32) {
    match source.below(8) {
        0 if number % 400 == 0 => of_sheet(&gates_of(15_000)),
        0..=1 => {
            let style = style(source);
            of_sheet(&sheet(source, style))
        }
        2 if number % 8 == 0 => {
            let n = source.between(2, 5) as u8;
            of_sheet(&pigeonhole(source.below(2) as u8, n, n - source.below(2) as u8))
        }
        _ => list(source),
    }
}

fn some_case(source: &mut Source, number: u64) -> Case {
    let (mut list, mut v) = some_list(source, number);
    let mut budget = budget(source);
    // a list can be short and its search long
    if list.len() > 400 || v > FEW {
        budget = budget.min(400_000 / list.len().max(1) as u64);
    }
    if source.chance(1, 4) {
        damage(source, &mut list, &mut v);
    }
    // slices for a v that is refused need not be that long
    let exact = v.min(16_001) as usize;
    let mut length = || match source.below(16) {
        0 => exact.saturating_sub(1),
        1 => source.below(exact + 1),
        2..=7 => exact,
        _ => exact + source.below(5),
    };
    let (values, trail) = (length(), length());
    if exact > 400 {
        budget = budget.min(40);
    }
    Case { list, v, values, trail, budget }
}

/// The list of a sheet; an empty one where it has none.
fn of_sheet(sheet: &reference::sheet::Sheet) -> (Vec<i32>, u32) {
    match read(&sheet.bytes()).and_then(|sheet| translate(&sheet)) {
        Ok(clauses) => (clauses.words(), clauses.variables),
        Err(_) => (Vec::new(), 3),
    }
}

/// Both searches over slices with a known filling: the answer of both, and the library's values.
fn compare(case: &Case, number: u64) -> Result<(Result<Answer, u32>, Vec<u8>), String> {
    let (mut values, mut trail) = (vec![7; case.values], vec![-7; case.trail]);
    let (mut got_values, mut got_trail) = (values.clone(), trail.clone());
    let want = search(&case.list, case.v, &mut values, &mut trail, case.budget);
    let got = library::search(&case.list, case.v, &mut got_values, &mut got_trail, case.budget);
    let asked = || asked(case, number);
    agree(got, want, asked)?;
    agree(&got_values, &values, asked)?;
    agree(got_trail, trail, asked)?;
    Ok((got, got_values))
}

fn asked(case: &Case, number: u64) -> String {
    format!("case {number}, v {}, budget {}, list {}", case.v, case.budget, shown(&case.list))
}

/// The place of an answer in the tally.
fn place(answer: Result<Answer, u32>) -> usize {
    match answer {
        Ok(answer) => answer.end as usize,
        Err(12) => 3,
        Err(_) => 4,
    }
}
