//! The call for the next (document 02, Change 6): the full assignment that it starts on is a clash.

use crate::resume::{taken_up, Position};
use crate::search::{Answer, End, State, Steps, CHOSEN, OPEN};

impl State {
    /// Whether every variable is set and no clause is false: each then has a true literal.
    pub fn is_full(&self, clauses: &[Vec<i32>]) -> bool {
        let is_true = |clause: &Vec<i32>| clause.iter().any(|&literal| self.is_true(literal));
        !self.values.contains(&OPEN) && clauses.iter().all(is_true)
    }

    /// The run from a full assignment turns the latest choice first, or ends where there is none; any other is the rules' own.
    pub fn next(&mut self, clauses: &[Vec<i32>], budget: u64) -> (End, Steps) {
        if !self.is_full(clauses) {
            return self.run(clauses, budget);
        }
        if !self.values.contains(&CHOSEN) {
            *self = State::all_open(self.values.len());
            return (End::None, Steps::default());
        }
        let Some(left) = budget.checked_sub(1) else { return (End::Spent, Steps::default()) };
        assert!(self.turn(), "a choice is left");
        let (end, taken) = self.run(clauses, left);
        (end, taken + Steps::new(0, 0, 1))
    }
}

/// The numbers, the slices and the record are those of a resumed call.
pub fn next(
    list: &[i32],
    v: u32,
    values: &mut [u8],
    trail: &mut [i32],
    position: &mut Position,
    budget: u64,
) -> Result<Answer, u32> {
    taken_up(list, v, (values, trail), position, budget, State::next)
}
