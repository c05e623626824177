//! The search by its step rules, as they are written (document 01, "Search", numbers 12 and 13), with a counter for each kind
//! of step (document 02, Change 3), and with choices that "found" keeps (Change 6). What takes a stopped one up again is in
//! `resume.rs`, what goes on to the next in `next.rs`.

use crate::clauses::VARIABLES;
use crate::sheet::{LIST, SHORT};
use std::ops::Add;

/// The bytes of the values.
pub const FALSE: u8 = 0;
pub const TRUE: u8 = 1;
pub const OPEN: u8 = 2;
pub const CHOSEN: u8 = 3;

#[derive(Clone, Copy, Debug, PartialEq, Eq)]
pub enum End {
    Found,
    None,
    Spent,
}

/// The steps of each kind, by themselves.
#[derive(Clone, Copy, Debug, Default, PartialEq, Eq)]
pub struct Steps {
    pub forces: u64,
    pub choices: u64,
    pub turns: u64,
}

impl Steps {
    pub const fn new(forces: u64, choices: u64, turns: u64) -> Steps {
        Steps { forces, choices, turns }
    }

    /// The three together, which may be more than 64 bits hold.
    pub fn sum(&self) -> u128 {
        [self.forces, self.choices, self.turns].map(u128::from).into_iter().sum()
    }
}

impl Add for Steps {
    type Output = Steps;

    /// Each kind by itself.
    fn add(self, more: Steps) -> Steps {
        Steps::new(self.forces + more.forces, self.choices + more.choices, self.turns + more.turns)
    }
}

#[derive(Clone, Copy, Debug, PartialEq, Eq)]
pub struct Answer {
    pub end: End,
    pub steps: Steps,
}

/// The assignment that values hold: what is false by choice is false.
pub fn settled(values: &[u8]) -> Vec<u8> {
    values.iter().map(|&value| if value == CHOSEN { FALSE } else { value }).collect()
}

/// The clauses of a list in words, or number 12.
pub fn cut(list: &[i32], v: u32) -> Result<Vec<Vec<i32>>, u32> {
    if v < 1 || v as usize > VARIABLES || list.len() > i32::MAX as usize {
        return Err(LIST);
    }
    let mut clauses = Vec::new();
    let mut rest = list;
    while let Some((&count, words)) = rest.split_first() {
        if count < 1 || count as usize > words.len() {
            return Err(LIST);
        }
        let (clause, after) = words.split_at(count as usize);
        if clause.iter().any(|&literal| literal == 0 || literal.unsigned_abs() > v) {
            return Err(LIST);
        }
        clauses.push(clause.to_vec());
        rest = after;
    }
    Ok(clauses)
}

/// The values of the variables and the literals in the order set.
pub struct State {
    pub values: Vec<u8>,
    pub trail: Vec<i32>,
}

impl State {
    /// Nothing set, of v variables.
    pub fn all_open(v: usize) -> State {
        State { values: vec![OPEN; v], trail: Vec::new() }
    }

    fn value(&self, literal: i32) -> u8 {
        self.values[literal.unsigned_abs() as usize - 1]
    }

    fn is_open(&self, literal: i32) -> bool {
        self.value(literal) == OPEN
    }

    pub fn is_true(&self, literal: i32) -> bool {
        match self.value(literal) {
            TRUE => literal > 0,
            FALSE | CHOSEN => literal < 0,
            _ => false,
        }
    }

    fn is_false(&self, literal: i32) -> bool {
        !self.is_open(literal) && !self.is_true(literal)
    }

    fn set(&mut self, literal: i32, value: u8) {
        self.values[literal.unsigned_abs() as usize - 1] = value;
        self.trail.push(literal);
    }

    /// Opens all back to the latest choice, which becomes true; false where there is no choice.
    pub fn turn(&mut self) -> bool {
        while let Some(literal) = self.trail.pop() {
            let chosen = self.value(literal) == CHOSEN;
            self.values[literal.unsigned_abs() as usize - 1] = OPEN;
            if chosen {
                self.set(-literal, TRUE);
                return true;
            }
        }
        false
    }

    /// The literal that the first clause with no true literal and one and the same open literal forces.
    fn forced(&self, clauses: &[Vec<i32>]) -> Option<i32> {
        for clause in clauses {
            if clause.iter().any(|&literal| self.is_true(literal)) {
                continue;
            }
            let open: Vec<i32> = clause.iter().copied().filter(|&literal| self.is_open(literal)).collect();
            if !open.is_empty() && open.iter().all(|&literal| literal == open[0]) {
                return Some(open[0]);
            }
        }
        None
    }

    fn lowest_open(&self) -> Option<i32> {
        self.values.iter().position(|&value| value == OPEN).map(|at| at as i32 + 1)
    }

    /// The end that the state is at, if it is at one.
    fn end(&self, clauses: &[Vec<i32>]) -> Option<End> {
        let clash = clauses.iter().any(|clause| clause.iter().all(|&literal| self.is_false(literal)));
        if clash {
            return (!self.values.contains(&CHOSEN)).then_some(End::None);
        }
        (!self.values.contains(&OPEN)).then_some(End::Found)
    }

    /// One step from a state that is at no end, which is counted by its kind.
    fn step(&mut self, clauses: &[Vec<i32>], taken: &mut Steps) {
        let clash = clauses.iter().any(|clause| clause.iter().all(|&literal| self.is_false(literal)));
        if clash {
            assert!(self.turn(), "a choice is left");
            taken.turns += 1;
        } else if let Some(literal) = self.forced(clauses) {
            self.set(literal, if literal > 0 { TRUE } else { FALSE });
            taken.forces += 1;
        } else {
            let variable = self.lowest_open().expect("an open variable");
            self.set(-variable, CHOSEN);
            taken.choices += 1;
        }
    }

    /// Steps up to an end or to the budget, and what the end does to the state; the end, and the steps taken.
    pub fn run(&mut self, clauses: &[Vec<i32>], budget: u64) -> (End, Steps) {
        let mut taken = Steps::default();
        let end = loop {
            match self.end(clauses) {
                Some(end) => break end,
                None if taken.sum() == u128::from(budget) => break End::Spent,
                None => self.step(clauses, &mut taken),
            }
        };
        if end == End::None {
            *self = State::all_open(self.values.len());
        }
        (end, taken)
    }

    /// Writes the state to the front of lent slices: the trail is filled up with 0s.
    pub fn store(&self, values: &mut [u8], trail: &mut [i32]) {
        let v = self.values.len();
        values[..v].copy_from_slice(&self.values);
        trail[..v].fill(0);
        trail[..self.trail.len()].copy_from_slice(&self.trail);
    }
}

/// The search from all open: numbers 12 and 13, else the end and the steps done of each kind.
/// Only the first v values and trail words are touched.
pub fn search(list: &[i32], v: u32, values: &mut [u8], trail: &mut [i32], budget: u64) -> Result<Answer, u32> {
    let clauses = cut(list, v)?;
    let v = v as usize;
    if values.len() < v || trail.len() < v {
        return Err(SHORT);
    }
    let mut state = State::all_open(v);
    let (end, steps) = state.run(&clauses, budget);
    state.store(values, trail);
    Ok(Answer { end, steps })
}
