//! Calls over a list and over the same padded: how often they went past their first steps, so that an index was made, or had a list that is too
//! long for one, and what they came to.

use super::states::{NEXT, RESUME};
use super::{covered, shown};
use reference::random_list::Padding;
use reference::random_state::Call;
use reference::search::{cut, Answer, End, Steps};

/// The most words that an index is made for.
pub const LIMIT: usize = 16_384;

/// After so many steps of a call's run the index is made, or was made at its start: over lists of more than 4,096 words, where the budget is
/// larger.
fn first_steps(words: usize) -> u64 {
    4 + LIMIT as u64 / (words as u64 + 1)
}

/// What is met by the index, and past the limit: calls, ends, and kinds of steps, by the index only after the first steps.
const MET: [&str; 9] =
    ["search", "resumed call", "call for the next", "found", "none", "spent", "force", "choice", "turn"];

/// Of the lists with a call past its first steps.
const LISTS: [&str; 7] = [
    "list of the most words",
    "list of a few words less",
    "list as it was drawn",
    "literal twice in a clause",
    "both signs in a clause",
    "variable three times in a clause",
    "clause of ten literals",
];

/// How often each was met.
pub struct Tally {
    by_index: [usize; MET.len()],
    past_limit: [usize; MET.len()],
    lists: [usize; LISTS.len()],
    /// Runs that are spent before the first steps are over, just then, and one step later; runs just past the limit.
    spent: [usize; 3],
    just_past: usize,
    steps: u128,
    calls: usize,
}

/// A list, and the same padded.
pub struct Case {
    pub plain: Vec<i32>,
    pub padded: Vec<i32>,
    pub v: u32,
    pub number: u64,
    pub padding: Padding,
}

impl Case {
    fn has_index(&self) -> bool {
        self.padded.len() <= LIMIT
    }

    pub fn first_steps(&self) -> u64 {
        first_steps(self.padded.len())
    }

    /// Steps that are waited for: more where there is an index.
    pub fn most(&self) -> u64 {
        let effort = if self.has_index() { 6_000_000 } else { 2_000_000 };
        (effort / (1 + self.padded.len() as u64)).min(3_000)
    }

    pub fn asked(&self, what: &str) -> String {
        let Case { plain, padded, v, number, padding } = self;
        format!("case {number}, {what}, v {v}, padded to {} words ({padding:?}), list {}", padded.len(), shown(plain))
    }
}

impl Tally {
    pub fn nothing() -> Tally {
        let (by_index, past_limit, lists) = ([0; MET.len()], [0; MET.len()], [0; LISTS.len()]);
        Tally { by_index, past_limit, lists, spent: [0; 3], just_past: 0, steps: 0, calls: 0 }
    }

    /// A call over the list alone, its answer, and its kind: its place in `MET`. Whether it had an index.
    pub fn call(&mut self, case: &Case, call: &Call, answer: Answer, kind: usize) -> bool {
        let (before, first) = (call.position.steps, case.first_steps());
        let taken = answer.steps.sum() - before.sum();
        self.calls += 1;
        self.steps += taken;
        if answer.end == End::Spent && case.has_index() {
            for place in (0..3).filter(|&place| taken + 1 == u128::from(first) + place) {
                self.spent[place as usize] += 1;
            }
        }
        if case.has_index() && taken <= u128::from(first) {
            return false;
        }
        let since = if case.has_index() { after(call, first, kind) } else { before };
        let Steps { forces, choices, turns } = answer.steps;
        let kinds = [forces > since.forces, choices > since.choices, turns > since.turns];
        let places = [kind, 3 + answer.end as usize].into_iter().chain((0..3).filter(|&at| kinds[at]).map(|at| 6 + at));
        let met = if case.has_index() { &mut self.by_index } else { &mut self.past_limit };
        places.for_each(|place| met[place] += 1);
        self.just_past += usize::from((LIMIT + 1..LIMIT + 4).contains(&case.padded.len()));
        case.has_index()
    }

    /// A case, of which a call had an index or none.
    pub fn list(&mut self, case: &Case, indexed: bool) {
        let words = case.padded.len();
        let clauses = cut(&case.padded, case.v).expect("a good list");
        let any = |is: &dyn Fn(&[i32]) -> bool| clauses.iter().any(|clause| is(clause));
        let times = |clause: &[i32], least: usize, same: fn(i32, i32) -> bool| {
            clause.iter().any(|&one| clause.iter().filter(|&&other| same(one, other)).count() >= least)
        };
        let met = [
            words == LIMIT,
            (LIMIT - 9..LIMIT).contains(&words),
            words == case.plain.len(),
            any(&|clause| times(clause, 2, |one, other| one == other)),
            any(&|clause| times(clause, 1, |one, other| one == -other)),
            any(&|clause| times(clause, 3, |one, other| one.abs() == other.abs())),
            any(&|clause| clause.len() >= 10),
        ];
        self.lists.iter_mut().zip(met).for_each(|(times, met)| *times += usize::from(met && indexed));
    }

    pub fn covered(&self) -> Result<(), String> {
        let named =
            |names: &[&'static str], times: &[usize]| names.iter().copied().zip(times.to_vec()).collect::<Vec<_>>();
        covered(&named(&MET, &self.by_index), 30)?;
        covered(&named(&MET, &self.past_limit), 20)?;
        covered(&named(&LISTS, &self.lists), 10)?;
        covered(&named(&["spent before the index", "as it is due", "after a step with it"], &self.spent), 30)?;
        covered(&[("just past the limit", self.just_past)], 50)
    }

    pub fn said(&self) -> String {
        let named = |names: &[&str], times: &[usize]| {
            let each: Vec<String> = names.iter().zip(times).map(|(name, times)| format!("{times} {name}")).collect();
            each.join(", ")
        };
        let (by_index, past) = (named(&MET, &self.by_index), named(&MET, &self.past_limit));
        let spent = named(&["just before the index", "as it is due", "just after"], &self.spent);
        let Tally { steps, calls, just_past, .. } = self;
        let lists = named(&LISTS, &self.lists);
        format!(
            "{calls} calls of {steps} steps; by the index {by_index}; spent {spent}; lists: {lists}; \
             past the limit {past}, {just_past} by a few words"
        )
    }
}

/// The counters that the reference comes to after so many steps of a call of a kind.
fn after(call: &Call, steps: u64, kind: usize) -> Steps {
    let mut call = Call { budget: steps, ..call.clone() };
    let sides = if MET[kind] == "call for the next" { NEXT } else { RESUME };
    call.make(sides.reference).map_or(Steps::default(), |answer| answer.steps)
}
