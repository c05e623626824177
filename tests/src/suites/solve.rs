//! Read-back (`read_backs.rs`) and the whole run over lent slices, each slice compared to its end; what a whole run finds, and a chain of calls
//! over the sheet's list, is the least instance where there are few cells.

use super::chains::{calls, Chain};
use super::least::{Least, Tally};
use super::limits::Limits;
use super::read_backs::{self, ReadBacks};
use super::search::FEW;
use super::{agree, covered, hex};
use crate::{Outcome, Run};
use reference::brute::instances;
use reference::clauses::count;
use reference::finder::find;
use reference::limits;
use reference::long_search::long;
use reference::random::Source;
use reference::random_cells::{by_columns, cells};
use reference::random_damage::any;
use reference::random_limits::{limit, limited as limited_sheet};
use reference::random_list::budget;
use reference::random_sheet::{gates_of, pigeonhole, sheet, style};
use reference::random_state::Call;
use reference::search::{Answer, End, Steps};
use reference::sheet::{read, Sheet, SHORT};

/// K1 to K4 and a sheet that turns, with forces, choices and turns.
fn marked() -> Result<(), String> {
    let k1 = vec![1, 0, 1, 2, 0, 0, 0, 4, 1, 0, 0, 0, 0, 6, 1, 0, 0, 22, 0, 0];
    let mut k2 = k1.clone();
    k2[9] = 2;
    let mut k3 = [k2.clone(), vec![30, 1, 0]].concat();
    k3[13] = 9;
    let found = Answer { end: End::Found, steps: Steps::new(3, 1, 0) };
    let none = Answer { end: End::None, steps: Steps::new(4, 0, 0) };
    let spent = Answer { end: End::Spent, steps: Steps::new(2, 1, 0) };
    // 1 and 6 are forced, -2 is chosen, 3, 4 and 5 are forced, the choice is turned, -3, 4 and 5 are forced
    let turned = (&long(&[], 0, false).bytes(), 99, Answer { end: End::None, steps: Steps::new(8, 1, 1) });
    for (sheet, budget, want) in [(&k1, 9, found), (&k2, 9, found), (&k3, 9, none), (&k1, 3, spent), turned] {
        let got = library::find(sheet, &mut [0; 40], &mut [0; 6], &mut [0; 6], &mut [0; 2], budget);
        agree(got, Ok(want), || format!("marked, find with budget {budget}, sheet {}", hex(sheet)))?;
    }
    limited(false)?;
    limited(true)
}

/// K1 of up to two atoms, found and spent; rows without an atom; and a sheet of 1,088 cells, where no atom is needed:
/// with the words, the budget, the steps and the instance by hand, or one word short.
fn limited(short: bool) -> Result<(), String> {
    let of = |end, forces, choices, cells| (Answer { end, steps: Steps::new(forces, choices, 0) }, cells);
    let row = limits::cases().into_iter().find(|case| case.name == "mark 2 over one sort").expect("a sheet").sheet;
    // the constant, the gate and the cells of relation 0 are forced; a choice for each atom forces its rows and columns
    let (most, none) = (limits::largest(0, 0), vec![0; 1_088]);
    let cases = [
        (limits::some(130), 20, 9, of(End::Found, 5, 1, vec![0, 1, 0, 1])),
        (limits::some(130), 20, 3, of(End::Spent, 2, 1, vec![9; 4])),
        (row, 60, 99, of(End::Found, 8, 0, vec![0; 6])),
        (most, 6_406, 9_999, of(End::Found, 1_026, 64, none)),
    ];
    for (sheet, words, budget, (want, cells)) in cases {
        let (bytes, size) = (sheet.bytes(), words - usize::from(short));
        let (mut list, mut instance) = (vec![0; size], vec![9; cells.len() + 1]);
        let got = library::find(&bytes, &mut list, &mut [0; 1_090], &mut [0; 1_090], &mut instance, budget);
        let left = if short { vec![9; cells.len() + 1] } else { [cells, vec![9]].concat() };
        let want = if short { Err(SHORT) } else { Ok(want) };
        agree((got, instance), (want, left), || format!("marked, {size} words, sheet {}", hex(&bytes)))?;
    }
    Ok(())
}

const TALLY: [(&str, usize); 7] = [
    ("found", 0),
    ("none", 0),
    ("spent", 0),
    ("a refused find", 0),
    ("with a force", 0),
    ("with a choice", 0),
    ("with a turn", 0),
];

pub fn run(run: &Run) -> Outcome {
    marked()?;
    read_backs::marked()?;
    let (mut tally, mut whole, mut chained) = (TALLY, Tally::default(), Tally::default());
    let (mut backs, mut limits) = (ReadBacks::nothing(), Limits::nothing());
    for case in run.cases(2_000) {
        let source = &mut Source::new(run.seed, "solve", case);
        let bytes = some_sheet(source, case);
        let (answer, instance) = compare_find(source, &bytes, case)?;
        let (ended, steps) = answer.map_or((3, Steps::default()), |answer| (answer.end as usize, answer.steps));
        tally[ended].1 += 1;
        for (at, taken) in [(4, steps.forces), (5, steps.choices), (6, steps.turns)] {
            tally[at].1 += usize::from(taken > 0);
        }
        limits.bytes(&bytes);
        if let (Ok(Answer { end: End::Found, .. }), Ok(sheet)) = (answer, read(&bytes)) {
            limits.instance(&sheet, &instance);
        }
        backs.compare(source, &bytes, case)?;
        if let Some(least) = few_cells(&bytes) {
            let asked = |how| format!("{how}, case {case}, sheet {}", hex(&bytes));
            compare_least(&mut whole, &least, (answer, &instance), || asked("find"))?;
            compare_in_calls(&mut chained, &least, source, &bytes, || asked("in calls"))?;
        }
    }
    covered(&tally, 50)?;
    backs.covered(50)?;
    limits.covered(30, 30)?;
    whole.covered(50, 20)?;
    chained.covered(100, 50)?;
    let times: Vec<String> = tally.iter().map(|(what, times)| format!("{times} {what}")).collect();
    let least = format!("{}; through resumed calls {}; {}", whole.said(), chained.said(), over_cells(run)?);
    let (backs, limits) = (backs.said(), limits.said());
    Ok(format!("whole runs agree: {}; read-backs: {backs}; {least}; {limits}", times.join(", ")))
}

/// The same for sheets whose least instance depends on the order of the cells.
fn over_cells(run: &Run) -> Outcome {
    let (mut whole, mut chained, mut ordered) = (Tally::default(), Tally::default(), 0);
    for case in run.cases(150) {
        let source = &mut Source::new(run.seed, "solve, cells", case);
        let sheet = cells(source);
        let bytes = sheet.bytes();
        let least = few_cells(&bytes).expect("few cells");
        let asked = |how| format!("over cells, {how}, case {case}, sheet {}", hex(&bytes));
        let (words, v, cells) = figures(&bytes);
        let (mut list, mut values, mut trail, mut instance) = (vec![0; words], vec![0; v], vec![0; v], vec![9; cells]);
        let budget = EFFORT / words as u64;
        let answer = library::find(&bytes, &mut list, &mut values, &mut trail, &mut instance, budget);
        agree(answer.err(), None, || asked("find"))?;
        compare_least(&mut whole, &least, (answer, &instance), || asked("find"))?;
        compare_in_calls(&mut chained, &least, source, &bytes, || asked("in calls"))?;
        let by_columns = instances(&sheet).into_iter().min_by_key(|instance| by_columns(&sheet, instance));
        ordered += usize::from(by_columns != least.first);
    }
    whole.covered(3, 20)?;
    chained.covered(3, 20)?;
    covered(&[("another least one by columns", ordered)], 20)?;
    let said = format!("{}; through resumed calls {}", whole.said(), chained.said());
    Ok(format!("over single cells, {ordered} with another least one by columns, {said}"))
}

fn some_sheet(source: &mut Source, case: u64) -> Vec<u8> {
    let style = style(source);
    match source.below(13) {
        0 => any(source),
        12 => limited_sheet(source).bytes(),
        1 if case % 20 == 0 => gates_of(15_990 + source.below(20)).bytes(),
        2 if case % 4 == 0 => {
            let sheet = pigeonhole(source.below(2) as u8, source.between(2, 4) as u8, 3);
            limited_at_times(source, sheet).bytes()
        }
        3 => {
            let sheet = long(&[(source.between(1, 3) as u8, source.below(3) as u8)], 0, source.chance(1, 2));
            limited_at_times(source, sheet).bytes()
        }
        _ => sheet(source, style).bytes(),
    }
}

fn limited_at_times(source: &mut Source, mut sheet: Sheet) -> Sheet {
    limit(source, &mut sheet);
    sheet
}

/// The least instance of a sheet that has a list and few cells.
fn few_cells(bytes: &[u8]) -> Option<Least> {
    let sheet = read(bytes).ok().filter(|_| count(bytes).is_ok())?;
    Least::of_sheet(&sheet)
}

/// The library's answer, where it is an end, against brute force: what stands in the front of the instance is the least.
fn compare_least(
    tally: &mut Tally,
    least: &Least,
    (answer, instance): (Result<Answer, u32>, &[u8]),
    asked: impl Fn() -> String,
) -> Result<(), String> {
    match answer {
        Ok(Answer { end: End::Found, steps }) => tally.compare(Some(instance), steps.turns, least, asked),
        Ok(Answer { end: End::None, steps }) => tally.compare(None, steps.turns, least, asked),
        _ => Ok(()),
    }
}

/// The same for a chain of calls, in which nothing is refused.
fn compare_in_calls(
    tally: &mut Tally,
    least: &Least,
    source: &mut Source,
    bytes: &[u8],
    asked: impl Fn() -> String,
) -> Result<(), String> {
    let (answer, instance) = in_calls(source, bytes).map_err(|number| format!("refused {number}, {}", asked()))?;
    compare_least(tally, least, (Ok(answer), &instance), asked)
}

/// Steps over a list that are waited for, times its words.
const EFFORT: u64 = 4_000_000;

/// By the library alone: the list is written, searched in calls that are cut at random, the last of them long, and what is
/// found is read back. The answer, and the instance.
fn in_calls(source: &mut Source, bytes: &[u8]) -> Result<(Answer, Vec<u8>), u32> {
    let (words, v, cells) = figures(bytes);
    let (mut list, mut instance) = (vec![0; words], vec![9; cells]);
    library::write(bytes, &mut list)?;
    // nothing is found in the first call: each variable takes a step, and there are two or more
    let mut cuts = vec![source.below(2) as u64];
    cuts.extend((0..source.below(8)).map(|_| source.below(12) as u64));
    cuts.push(EFFORT / words as u64);
    let start = Call::fresh(source, &list, v as u32);
    let Chain { last, left, .. } = calls(&start, &cuts, source.chance(1, 2));
    let answer = last?;
    if answer.end == End::Found {
        library::read_back(bytes, &left.values[..v], &mut instance)?;
    }
    Ok((answer, instance))
}

/// A length that is mostly enough: exact, longer, one less.
pub fn length(source: &mut Source, exact: usize) -> usize {
    match source.below(12) {
        0 => exact.saturating_sub(1),
        1..=6 => exact,
        _ => exact + source.below(6),
    }
}

/// The figures of a sheet: words, variables and cells; small ones where it is refused.
pub fn figures(bytes: &[u8]) -> (usize, usize, usize) {
    match (count(bytes), read(bytes)) {
        (Ok(size), Ok(sheet)) => (size.words as usize, size.variables as usize, sheet.cells()),
        _ => (20, 6, 3),
    }
}

/// The whole run by both sides: the answer, and the library's instance.
fn compare_find(source: &mut Source, bytes: &[u8], case: u64) -> Result<(Result<Answer, u32>, Vec<u8>), String> {
    let (words, variables, cells) = figures(bytes);
    let mut budget = budget(source);
    // a list can be short and its search long
    if words > 300 || variables > FEW as usize {
        budget = budget.min(100_000 / words as u64);
    }
    let mut list = vec![0x5eed; length(source, words)];
    let (mut values, mut trail) = (vec![7; length(source, variables)], vec![-7; length(source, variables)]);
    let mut instance = vec![9; length(source, cells)];
    let (mut list2, mut values2, mut trail2, mut instance2) =
        (list.clone(), values.clone(), trail.clone(), instance.clone());
    let want = find(bytes, &mut list, &mut values, &mut trail, &mut instance, budget);
    let got = library::find(bytes, &mut list2, &mut values2, &mut trail2, &mut instance2, budget);
    let asked = || format!("case {case}, find with budget {budget}, sheet {}", hex(bytes));
    agree(got, want, asked)?;
    agree(list2, list, asked)?;
    agree(values2, values, asked)?;
    agree(trail2, trail, asked)?;
    agree(&instance2, &instance, asked)?;
    instance2.truncate(cells);
    Ok((got, instance2))
}
