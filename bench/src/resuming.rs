//! A search taken up again: in slices of 100 steps beside one run, and number 14 beside one step.

use crate::{best, line};
use reference::clauses::Clauses;
use reference::resume::Position;
use reference::search::{Answer, End, Steps};
use std::hint::black_box;
use std::time::Duration;

const SLICE: u64 = 100;

/// A list, and slices that a search of it is stored in.
#[derive(Clone)]
struct Stored {
    words: Vec<i32>,
    v: u32,
    values: Vec<u8>,
    trail: Vec<i32>,
    position: Position,
}

impl Stored {
    fn fresh(list: &Clauses) -> Stored {
        let v = list.variables as usize;
        let (values, trail) = (vec![2; v], vec![0; v]);
        Stored { words: list.words(), v: list.variables, values, trail, position: Position::default() }
    }

    fn search(&mut self, budget: u64) -> Answer {
        library::search(&self.words, self.v, &mut self.values, &mut self.trail, budget).expect("a good list")
    }

    fn resume(&mut self, budget: u64) -> Result<Answer, u32> {
        library::resume(&self.words, self.v, &mut self.values, &mut self.trail, &mut self.position, budget)
    }

    /// The search from the start in slices, and the number of calls.
    fn in_slices(&mut self, budget: u64) -> (Answer, u64) {
        self.values.fill(2);
        self.trail.fill(0);
        self.position = Position::default();
        for calls in 1.. {
            let left = budget - self.position.steps.sum() as u64;
            let answer = self.resume(left.min(SLICE)).expect("a state");
            if answer.end != End::Spent || answer.steps.sum() == u128::from(budget) {
                return (answer, calls);
            }
        }
        unreachable!()
    }

    /// Takes over the state that another has.
    fn restore(&mut self, other: &Stored) {
        self.values.copy_from_slice(&other.values);
        self.trail.copy_from_slice(&other.trail);
        self.position = other.position;
    }
}

/// The searches of all lists in slices and in one run, with a budget for each.
pub fn slices(what: &str, lists: &[Clauses], budget: u64) {
    let mut sliced: Vec<Stored> = lists.iter().map(Stored::fresh).collect();
    let mut whole = sliced.clone();
    let (mut steps, mut calls) = (0, 0);
    for (one, other) in sliced.iter_mut().zip(&mut whole) {
        let (answer, made) = one.in_slices(budget);
        assert_eq!(answer, other.search(budget));
        assert_eq!((&one.values, &one.trail), (&other.values, &other.trail));
        steps += answer.steps.sum() as u64;
        calls += made;
    }
    let times = best(
        || {
            sliced.iter_mut().for_each(|one| {
                black_box(one.in_slices(budget));
            })
        },
        || {
            whole.iter_mut().for_each(|one| {
                black_box(one.search(budget));
            })
        },
    );
    line(&format!("{what} in {calls} calls"), steps, "steps", ["in slices", "in one run"], times);
}

/// Number 14 on states in the middle of a search: a call that it declines for the steps, the last that it tests, less one that
/// it declines for the length, the first; beside a step: a call that takes one, less a call that takes none.
pub fn number_14(what: &str, lists: &[Clauses], budget: u64, times: u32) {
    let states: Vec<Stored> = lists.iter().map(|list| in_the_middle(list, budget)).collect();
    let (mut by_steps, mut by_length, mut taken) = (states.clone(), states.clone(), states.clone());
    by_steps.iter_mut().for_each(|one| one.position.steps = Steps::new(u64::MAX, 0, 0));
    by_length.iter_mut().for_each(|one| one.position.length = one.trail.len() + 1);
    assert!(by_steps.iter_mut().chain(&mut by_length).all(|one| one.resume(1) == Err(14)));
    let again = |work: &mut dyn FnMut()| (0..times).for_each(|_| work());
    let declined = |states: &mut [Stored]| {
        again(&mut || {
            states.iter_mut().for_each(|one| {
                let _ = black_box(one.resume(1));
            })
        })
    };
    let (whole, first) = best(|| declined(&mut by_steps), || declined(&mut by_length));
    let mut take = |budget: u64| {
        again(&mut || {
            taken.iter_mut().zip(&states).for_each(|(one, state)| {
                one.restore(state);
                let _ = black_box(one.resume(budget));
            })
        })
    };
    let (one, none) = both(&mut take);
    let less = (whole.saturating_sub(first), one.saturating_sub(none));
    line(what, u64::from(times) * states.len() as u64, "states", ["number 14", "one step"], less);
}

/// The best times of calls that take one step, and of calls that take none.
fn both(take: &mut impl FnMut(u64)) -> (Duration, Duration) {
    let take = std::cell::RefCell::new(take);
    best(|| take.borrow_mut()(1), || take.borrow_mut()(0))
}

/// The state after half of the steps that a search takes.
fn in_the_middle(list: &Clauses, budget: u64) -> Stored {
    let mut stored = Stored::fresh(list);
    let half = stored.search(budget).steps.sum() as u64 / 2;
    let answer = stored.search(half);
    let length = stored.trail.iter().take_while(|&&word| word != 0).count();
    stored.position = Position { length, steps: answer.steps };
    stored
}
