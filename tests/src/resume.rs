//! A stopped search taken up again (document 02, Changes 1 and 3; number 14).

use crate::search::{cut, Answer, End, State, Steps, CHOSEN, FALSE, OPEN, TRUE};
use crate::sheet::{SHORT, STATE};
use std::collections::BTreeSet;

/// The record: the trail's length, and the steps done so far of each kind.
#[derive(Clone, Copy, Debug, Default, PartialEq, Eq)]
pub struct Position {
    pub length: usize,
    pub steps: Steps,
}

/// The conditions of 14, in the order of its sentence.
#[derive(Clone, Copy, Debug, PartialEq, Eq)]
pub enum Fault {
    Length,
    Range,
    Repeated,
    Contradicts,
    Byte,
    Word,
    Steps,
}

const FAULTS: [Fault; 7] =
    [Fault::Length, Fault::Range, Fault::Repeated, Fault::Contradicts, Fault::Byte, Fault::Word, Fault::Steps];

/// "v goes with 1, -v with 0 or 3"
fn goes_with(literal: i32, value: u8) -> bool {
    match value {
        TRUE => literal > 0,
        FALSE | CHOSEN => literal < 0,
        _ => false,
    }
}

/// The conditions of 14 that apply to v values and v words, the record and the steps allowed. A literal out of range has no
/// value that it could contradict.
pub fn faults(values: &[u8], trail: &[i32], position: &Position, budget: u64) -> Vec<Fault> {
    let v = values.len();
    let (literals, behind) = trail.split_at(position.length.min(v));
    let in_range = |literal: i32| literal != 0 && literal.unsigned_abs() as usize <= v;
    let value = |literal: i32| values[literal.unsigned_abs() as usize - 1];
    let different: BTreeSet<i32> = literals.iter().copied().collect();
    let on_trail: BTreeSet<usize> = literals.iter().map(|literal| literal.unsigned_abs() as usize).collect();
    let applies = |fault: &Fault| match fault {
        Fault::Length => position.length > v,
        Fault::Range => literals.iter().any(|&literal| !in_range(literal)),
        Fault::Repeated => different.len() < literals.len(),
        Fault::Contradicts => literals.iter().any(|&literal| in_range(literal) && !goes_with(literal, value(literal))),
        Fault::Byte => (1..=v).any(|variable| !on_trail.contains(&variable) && values[variable - 1] != OPEN),
        Fault::Word => behind.iter().any(|&word| word != 0),
        Fault::Steps => position.steps.sum() + u128::from(budget) > u128::from(u64::MAX),
    };
    FAULTS.into_iter().filter(applies).collect()
}

/// The search from the state that slices and record hold: numbers 12, 13 and 14, else the end and the total of each kind.
pub fn resume(
    list: &[i32],
    v: u32,
    values: &mut [u8],
    trail: &mut [i32],
    position: &mut Position,
    budget: u64,
) -> Result<Answer, u32> {
    taken_up(list, v, (values, trail), position, budget, State::run)
}

/// A run over clauses of at most so many steps: its end, and the steps taken.
pub type Steered = fn(&mut State, &[Vec<i32>], u64) -> (End, Steps);

/// A run from the state that slices and record hold. Only the first v values and trail words are touched; a refusal changes
/// nothing.
pub fn taken_up(
    list: &[i32],
    v: u32,
    (values, trail): (&mut [u8], &mut [i32]),
    position: &mut Position,
    budget: u64,
    run: Steered,
) -> Result<Answer, u32> {
    let clauses = cut(list, v)?;
    let v = v as usize;
    if values.len() < v || trail.len() < v {
        return Err(SHORT);
    }
    if !faults(&values[..v], &trail[..v], position, budget).is_empty() {
        return Err(STATE);
    }
    let mut state = State { values: values[..v].to_vec(), trail: trail[..position.length].to_vec() };
    let (end, taken) = run(&mut state, &clauses, budget);
    state.store(values, trail);
    let steps = position.steps + taken;
    *position = Position { length: if end == End::None { 0 } else { state.trail.len() }, steps };
    Ok(Answer { end, steps })
}
