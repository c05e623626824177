//! Calls for the next from a fresh start up to "none": what they find, one after another, against all that there is.

use super::clashes::{Met, Start};
use super::states::{compare, same, Left, NEXT, RESUME};
use super::{agree, shown};
use reference::next::next;
use reference::random::Source;
use reference::random_state::Call;
use reference::resume::Position;
use reference::search::{End, Steps};

/// Steps that are waited for, times the words of the list.
const EFFORT: u64 = 16_000_000;

/// What walks came to.
pub struct Walks {
    pub met: Met,
    pub calls: usize,
    pub found: usize,
    /// Those that came to "none", and those that were given up before.
    pub ended: usize,
    pub cut: usize,
    pub by_search: usize,
    pub by_resume: usize,
    pub anew: usize,
}

impl Walks {
    pub fn nothing() -> Walks {
        Walks { met: Met::nothing(), calls: 0, found: 0, ended: 0, cut: 0, by_search: 0, by_resume: 0, anew: 0 }
    }

    /// Enough of each, in any walks.
    pub fn covered(&self, enough: usize) -> Result<(), String> {
        super::covered(self.met.tally(), enough)?;
        let others = [("a first call of search", self.by_search), ("a resumed call between", self.by_resume)];
        super::covered(&others, enough)?;
        super::covered(&[("a walk up to none", self.ended), ("a start after none", self.anew)], enough)
    }

    pub fn said(&self) -> String {
        let Walks { calls, found, ended, cut, by_search, by_resume, anew, .. } = self;
        let others = format!("{by_search} begun by search, {by_resume} calls resumed, {anew} begun anew after none");
        format!("{found} found in order by {calls} calls, {ended} ended, {cut} given up, {others}; {}", self.met.said())
    }
}

/// A walk over a list: all that its calls are to find, in order, and how what they leave is read.
pub struct Walk<'a> {
    pub list: &'a [i32],
    pub v: u32,
    pub wanted: &'a [Vec<u8>],
    pub read: &'a dyn Fn(&[u8]) -> Result<Vec<u8>, u32>,
    pub asked: &'a dyn Fn() -> String,
}

/// Steps to allow: in some walks all that are left, in others none, one and few.
fn allowed(source: &mut Source, mode: usize) -> u64 {
    let few = source.below(12) as u64;
    match mode {
        0 => 1_000_000,
        1 => source.pick(&[0, 1, 1, 2]),
        2 => source.pick(&[0, 1, few, few]),
        _ => source.pick(&[0, 1, few, 50, 1_000, 1 << 40]),
    }
}

impl Walk<'_> {
    pub fn go(&self, source: &mut Source, walks: &mut Walks) -> Result<(), String> {
        let (mut call, mode) = (Call::fresh(source, self.list, self.v), source.below(4));
        let (mut given, mut effort) = (0, EFFORT / (1 + self.list.len() as u64));
        for number in 0.. {
            call.budget = allowed(source, mode);
            let left = self.call(source, &call, number, walks)?;
            let answer = left.answer.map_err(|number| format!("refused {number}: {}", (self.asked)()))?;
            let taken = (answer.steps.sum() - call.position.steps.sum()) as u64;
            call = left.call;
            match answer.end {
                End::Found => self.found(&call, &mut given)?,
                End::None => break,
                End::Spent => {}
            }
            effort = effort.saturating_sub(taken + 5);
            if effort == 0 {
                (walks.found, walks.cut) = (walks.found + given, walks.cut + 1);
                return Ok(());
            }
        }
        agree(given, self.wanted.len(), || format!("how many before none, {}", (self.asked)()))?;
        (walks.found, walks.ended) = (walks.found + given, walks.ended + 1);
        self.anew(call, walks)
    }

    /// One call by both sides: the first may be `search`, and one that does not start on a full assignment a resumed one.
    fn call(&self, source: &mut Source, call: &Call, number: usize, walks: &mut Walks) -> Result<Left, String> {
        let asked = || format!("call {number}, {}", (self.asked)());
        let start = Start::of(call);
        walks.calls += 1;
        if number == 0 && source.chance(1, 3) {
            walks.by_search += 1;
            return searched(call, asked);
        }
        if !start.is_full() && source.chance(1, 8) {
            walks.by_resume += 1;
            return compare(RESUME, call, asked);
        }
        let left = compare(NEXT, call, asked)?;
        walks.met.call(start, call, &left);
        Ok(left)
    }

    /// What was found is the next that was not given yet.
    fn found(&self, call: &Call, given: &mut usize) -> Result<(), String> {
        let got = (self.read)(&call.values[..self.v as usize]);
        agree(got.as_ref(), self.wanted.get(*given).ok_or(&0), || format!("number {given}, {}", (self.asked)()))?;
        *given += 1;
        Ok(())
    }

    /// From what "none" left the next call starts over.
    fn anew(&self, mut call: Call, walks: &mut Walks) -> Result<(), String> {
        call.budget = 1_000_000;
        let left = compare(NEXT, &call, || format!("after none, {}", (self.asked)()))?;
        let want = if self.wanted.is_empty() { End::None } else { End::Found };
        agree(left.answer.map(|answer| answer.end), Ok(want), || format!("after none, {}", (self.asked)()))?;
        walks.anew += 1;
        match want {
            End::Found => self.found(&left.call, &mut 0),
            _ => Ok(()),
        }
    }
}

/// The first call by `search` itself, over slices with anything in them: it leaves what a call for the next would, and the
/// record has the trail's length and the counters of the answer.
fn searched(call: &Call, asked: impl Fn() -> String) -> Result<Left, String> {
    let (mut left, mut want, v) = (call.clone(), call.clone(), call.v as usize);
    left.values[..v].fill(7);
    left.trail[..v].fill(-7);
    let answer = library::search(&left.list, left.v, &mut left.values, &mut left.trail, left.budget);
    let length = left.trail[..v].iter().take_while(|&&word| word != 0).count();
    left.position = Position { length, steps: answer.map_or(Steps::default(), |answer| answer.steps) };
    let asked = || format!("search, budget {}, {}, list {}", call.budget, asked(), shown(&call.list));
    agree(answer, want.make(next), asked)?;
    same(&left, &want, asked)?;
    Ok(Left { answer, call: left })
}
