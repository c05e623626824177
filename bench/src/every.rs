//! Every case: calls for the next from a fresh start on, up to so many cases of each list, by the library and by Rust.

use crate::search::{next, Standing};
use crate::{best, line, SIDES};
use reference::clauses::Clauses;
use reference::resume::Position;
use reference::search::{Answer, End};
use std::hint::black_box;

/// Slices for one list.
struct Slices {
    words: Vec<i32>,
    values: Vec<u8>,
    trail: Vec<i32>,
}

impl Slices {
    fn new(list: &Clauses) -> Slices {
        let v = list.variables as usize;
        Slices { words: list.words(), values: vec![2; v], trail: vec![0; v] }
    }

    fn open(&mut self) {
        self.values.fill(2);
        self.trail.fill(0);
    }

    /// The answers up to one that is not "found", or to the last case that is wanted.
    fn by_library(&mut self, budget: u64, most: usize) -> Vec<Answer> {
        self.open();
        let mut position = Position::default();
        let v = self.values.len() as u32;
        until_end(most, || {
            library::next(&self.words, v, &mut self.values, &mut self.trail, &mut position, budget).expect("a state")
        })
    }

    fn by_rust(&mut self, budget: u64, most: usize) -> Vec<Answer> {
        self.open();
        let mut at = Standing::default();
        until_end(most, || next(&self.words, &mut self.values, &mut self.trail, &mut at, budget))
    }
}

fn until_end(most: usize, mut call: impl FnMut() -> Answer) -> Vec<Answer> {
    let mut answers = Vec::new();
    while answers.len() < most {
        answers.push(call());
        if answers.last().is_some_and(|answer| answer.end != End::Found) {
            break;
        }
    }
    answers
}

/// All lists, with a budget for each call.
pub fn cases(what: &str, lists: &[Clauses], budget: u64, most: usize) {
    let mut ours: Vec<Slices> = lists.iter().map(Slices::new).collect();
    let mut rust: Vec<Slices> = lists.iter().map(Slices::new).collect();
    let (mut steps, mut calls) = (0, 0);
    for (one, other) in ours.iter_mut().zip(&mut rust) {
        let answers = one.by_library(budget, most);
        assert_eq!(answers, other.by_rust(budget, most));
        assert_eq!((&one.values, &one.trail), (&other.values, &other.trail));
        steps += answers.last().map_or(0, |answer| answer.steps.sum() as u64);
        calls += answers.len();
    }
    let times = best(
        || {
            ours.iter_mut().for_each(|one| {
                black_box(one.by_library(budget, most));
            })
        },
        || {
            rust.iter_mut().for_each(|one| {
                black_box(one.by_rust(budget, most));
            })
        },
    );
    line(&format!("{what} in {calls} calls"), steps, "steps", SIDES, times);
}
