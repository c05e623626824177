//! What a call for the next starts on, and how often each start came to each end.

use super::states::Left;
use reference::brute::holds;
use reference::random_state::Call;
use reference::search::{cut, settled, End, CHOSEN, OPEN};

/// The state that a call starts on which is not refused.
#[derive(Clone, Copy, Debug, PartialEq, Eq)]
pub enum Start {
    Open,
    FalseClause,
    FullWithChoice,
    FullWithoutChoice,
}

impl Start {
    pub fn of(call: &Call) -> Start {
        let values = &call.values[..call.v as usize];
        let (assignment, clauses) = (settled(values), cut(&call.list, call.v).expect("a good list"));
        if values.contains(&OPEN) {
            Start::Open
        } else if !clauses.iter().all(|clause| holds(clause, &assignment)) {
            Start::FalseClause
        } else if values.contains(&CHOSEN) {
            Start::FullWithChoice
        } else {
            Start::FullWithoutChoice
        }
    }

    pub fn is_full(self) -> bool {
        matches!(self, Start::FullWithChoice | Start::FullWithoutChoice)
    }
}

/// How often each was met.
#[derive(Clone)]
pub struct Met([(&'static str, usize); 9]);

impl Met {
    pub fn nothing() -> Met {
        let names = [
            "from an open variable",
            "from a false clause",
            "found after a clash",
            "found by the turn alone",
            "none after a turn",
            "spent after a turn",
            "spent without a step allowed",
            "none without a choice",
            "none without a choice or a step allowed",
        ];
        Met(names.map(|name| (name, 0)))
    }

    /// A call that was not refused, and what it came to.
    pub fn call(&mut self, start: Start, call: &Call, left: &Left) {
        let Ok(answer) = left.answer else { return };
        let one = answer.steps.sum() == call.position.steps.sum() + 1;
        let places: &[usize] = match (start, answer.end) {
            (Start::Open, _) => &[0],
            (Start::FalseClause, _) => &[1],
            (Start::FullWithChoice, End::Found) if one => &[2, 3],
            (Start::FullWithChoice, End::Found) => &[2],
            (Start::FullWithChoice, End::None) => &[4],
            (Start::FullWithChoice, End::Spent) if call.budget > 0 => &[5],
            (Start::FullWithChoice, End::Spent) => &[6],
            (Start::FullWithoutChoice, _) if call.budget == 0 => &[7, 8],
            (Start::FullWithoutChoice, _) => &[7],
        };
        places.iter().for_each(|&place| self.0[place].1 += 1);
    }

    pub fn tally(&self) -> &[(&'static str, usize)] {
        &self.0
    }

    pub fn said(&self) -> String {
        let times: Vec<String> = self.0.iter().map(|(what, times)| format!("{times} {what}")).collect();
        times.join(", ")
    }
}
