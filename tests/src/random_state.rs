//! Resumed calls as a caller lends them: states that a search left, the same with one thing changed, and states that no
//! search leaves.

use crate::random::Source;
use crate::resume::Position;
use crate::search::{search, Answer, Steps, CHOSEN, FALSE, OPEN, TRUE};

/// The most steps that are counted, and half of one more.
pub const MOST: u64 = u64::MAX;
pub const HALF: u64 = 1 << 63;

#[derive(Clone, Debug)]
pub struct Call {
    pub list: Vec<i32>,
    pub v: u32,
    pub values: Vec<u8>,
    pub trail: Vec<i32>,
    pub position: Position,
    pub budget: u64,
}

/// A resumed call of either side.
pub type Resume = fn(&[i32], u32, &mut [u8], &mut [i32], &mut Position, u64) -> Result<Answer, u32>;

impl Call {
    /// A record of zeros over open slices, of v bytes and words or longer; what is behind them is anything.
    pub fn fresh(source: &mut Source, list: &[i32], v: u32) -> Call {
        let (mut values, mut trail) = (vec![OPEN; v as usize], vec![0; v as usize]);
        values.extend((0..source.below(4)).map(|_| source.pick(&[0, 1, 2, 3, 7, 255])));
        trail.extend((0..source.below(4)).map(|_| source.pick(&[0, 1, -1, -7, v as i32, i32::MIN])));
        Call { list: list.to_vec(), v, values, trail, position: Position::default(), budget: 0 }
    }

    /// What a search from the start leaves after so many steps.
    pub fn stopped(source: &mut Source, list: &[i32], v: u32, steps: u64) -> Call {
        let mut call = Call::fresh(source, list, v);
        let answer = search(list, v, &mut call.values, &mut call.trail, steps).expect("a good list");
        let length = call.trail[..v as usize].iter().take_while(|&&word| word != 0).count();
        call.position = Position { length, steps: answer.steps };
        call
    }

    /// The same with so many steps done before.
    pub fn after(mut self, steps: Steps) -> Call {
        self.position.steps = self.position.steps + steps;
        self
    }

    /// Any variables set, in any order, with any counters: 14 lets it pass, and most such states are reached by no search.
    pub fn unreached(source: &mut Source, list: &[i32], v: u32) -> Call {
        let mut call = Call::fresh(source, list, v);
        let mut variables: Vec<i32> = (1..=v as i32).collect();
        let some = source.below(v as usize + 1);
        for length in 0..source.pick(&[v as usize, some, some, some / 2, some.min(2)]) {
            let variable = variables.swap_remove(source.below(variables.len()));
            call.trail[length] = source.pick(&[variable, -variable]);
            let value = if call.trail[length] > 0 { TRUE } else { source.pick(&[FALSE, CHOSEN]) };
            call.values[variable as usize - 1] = value;
            call.position.length = length + 1;
        }
        call.after(counters(source))
    }

    /// An assignment set in any order, what is false all by choice, none of it, or in part: 14 lets it pass.
    pub fn full(source: &mut Source, list: &[i32], v: u32, assignment: &[u8]) -> Call {
        let mut call = Call::fresh(source, list, v);
        let mut variables: Vec<usize> = (0..v as usize).collect();
        let falses = source.pick(&[&[FALSE][..], &[CHOSEN], &[FALSE, CHOSEN]]);
        for length in 0..v as usize {
            let at = variables.swap_remove(source.below(variables.len()));
            let variable = at as i32 + 1;
            (call.trail[length], call.values[at]) = match assignment[at] {
                TRUE => (variable, TRUE),
                _ => (-variable, source.pick(falses)),
            };
        }
        call.position.length = v as usize;
        call.after(counters(source))
    }

    /// The call made by one side.
    pub fn make(&mut self, resume: Resume) -> Result<Answer, u32> {
        resume(&self.list, self.v, &mut self.values, &mut self.trail, &mut self.position, self.budget)
    }

    fn changed(&self, change: impl FnOnce(&mut Call)) -> Call {
        let mut call = self.clone();
        change(&mut call);
        call
    }

    /// Opens the variable of a word, if it has one.
    fn open(&mut self, word: i32) {
        let at = (word.unsigned_abs() as usize).wrapping_sub(1);
        self.values[..self.v as usize].iter_mut().skip(at).take(1).for_each(|value| *value = OPEN);
    }

    fn literals(&self) -> &[i32] {
        &self.trail[..self.position.length]
    }
}

/// Counters to hand in, mostly three that differ: none, few, many. With a budget below 2^62 number 14 lets them pass.
pub fn counters(source: &mut Source) -> Steps {
    let mut counter = || {
        let (few, many) = (source.below(100) as u64, source.next() >> 2);
        source.pick(&[0, 1, few, 1_000_000 + few, many])
    };
    Steps::new(counter(), counter(), counter())
}

/// A sum over the three counters in each way: all in one of them, in two, in three.
pub fn spreads(source: &mut Source, sum: u64) -> Vec<Steps> {
    (1..8).map(|used| spread(source, sum, used)).collect()
}

/// A sum over the counters whose bit is set.
fn spread(source: &mut Source, sum: u64, used: usize) -> Steps {
    let (mut three, mut last, mut left) = ([0; 3], 0, sum);
    for at in (0..3).filter(|at| used >> at & 1 == 1) {
        let any = (u128::from(source.next()) % (u128::from(left) + 1)) as u64;
        three[at] = source.pick(&[any, any, left / 2, left.min(1)]);
        left -= three[at];
        last = at;
    }
    three[last] += left;
    Steps::new(three[0], three[1], three[2])
}

/// Counters that are more than 2^64 - 1 by themselves, in any order. In 64 bits they come to 0 twice, to 2^63, to 2^64 - 3, to
/// little, and two of them or only all three to anything.
fn too_many(source: &mut Source) -> Vec<Steps> {
    let (few, mut upper) = (source.below(9) as u64, || source.next() | HALF);
    let (one, other) = (upper(), upper());
    let mut third = || (source.next() >> 3) + (3 << 61);
    let sums = [
        [HALF, HALF, 0],
        [MOST, MOST, 2],
        [HALF, HALF, HALF],
        [MOST, MOST, MOST],
        [MOST, 1, few],
        [one, other, few],
        [third(), third(), third()],
    ];
    let mut ordered = |[x, y, z]: [u64; 3]| {
        let orders = [(x, y, z), (x, z, y), (y, x, z), (y, z, x), (z, x, y), (z, y, x)];
        let (forces, choices, turns) = source.pick(&orders);
        Steps::new(forces, choices, turns)
    };
    sums.map(&mut ordered).to_vec()
}

/// What was changed, and the call with it.
pub type Damaged = (String, Call);

/// A call with one thing changed, in every way that there is at the edges of 14; some of it passes. Its length is within v.
pub fn damages(source: &mut Source, call: &Call) -> Vec<Damaged> {
    let mut all = lengths(call);
    all.extend(words_on_trail(source, call));
    all.extend(bytes(source, call));
    all.extend(words_behind(source, call));
    all.extend(steps(source, call));
    all
}

fn lengths(call: &Call) -> Vec<Damaged> {
    let (length, v) = (call.position.length, call.v as usize);
    let lengths = [0, length.wrapping_sub(1), length + 1, v, v + 1, length + (1 << 32), length | 1 << 63, usize::MAX];
    let damaged = |to: usize| (format!("length {to}"), call.changed(|call| call.position.length = to));
    lengths.into_iter().map(damaged).collect()
}

/// A word in the place of a literal, whose variable is opened or not, and a word after the last literal.
fn words_on_trail(source: &mut Source, call: &Call) -> Vec<Damaged> {
    let (length, v) = (call.position.length, call.v as i32);
    let mut all = Vec::new();
    let mut words = vec![0, v, -v, v + 1, -v - 1, i32::MIN, i32::MIN + 1, i32::MAX];
    if length > 0 {
        // one of the trail once more, its opposite, and two that change places
        let (at, other) = (source.below(length), source.below(length));
        words.extend([call.trail[other], call.trail[other].wrapping_neg()]);
        all.push((format!("places {at} and {other} exchanged"), call.changed(|call| call.trail.swap(at, other))));
        for place in [0, at, length - 1] {
            let old = call.trail[place];
            for word in words.iter().copied().chain([old.wrapping_neg()]) {
                let replaced = call.changed(|call| call.trail[place] = word);
                let opened = replaced.changed(|call| call.open(old));
                all.push((format!("{word} at place {place}"), replaced));
                all.push((format!("{word} at place {place}, the variable of {old} opened"), opened));
            }
        }
    }
    if length < v as usize {
        for word in words {
            let longer = call.changed(|call| {
                call.trail[length] = word;
                call.position.length += 1;
            });
            // with each byte that could go with it
            let at = word.unsigned_abs() as usize;
            if (1..=v as usize).contains(&at) && !call.literals().iter().any(|l| l.unsigned_abs() as usize == at) {
                for value in [FALSE, TRUE, CHOSEN] {
                    let set = longer.changed(|call| call.values[at - 1] = value);
                    all.push((format!("{word} with byte {value} after the trail"), set));
                }
            }
            all.push((format!("{word} after the trail"), longer));
        }
    }
    all
}

/// Each byte for a variable that is true, one that is false and one that is open, for the first and the last.
fn bytes(source: &mut Source, call: &Call) -> Vec<Damaged> {
    let v = call.v as usize;
    let mut places = vec![0, v - 1];
    for wanted in [&[TRUE][..], &[FALSE, CHOSEN], &[OPEN]] {
        let some: Vec<usize> = (0..v).filter(|&at| wanted.contains(&call.values[at])).collect();
        if !some.is_empty() {
            places.push(source.pick(&some));
        }
    }
    let mut all = Vec::new();
    for at in places {
        for byte in [0, 1, 2, 3, 4, 255] {
            let changed = call.changed(|call| call.values[at] = byte);
            all.push((format!("byte {byte} for variable {}", at + 1), changed));
        }
    }
    all
}

/// A word behind the length: right behind it, at the end of the first v, anywhere between.
fn words_behind(source: &mut Source, call: &Call) -> Vec<Damaged> {
    let (length, v) = (call.position.length, call.v as usize);
    let mut all = Vec::new();
    if length < v {
        for at in [length, v - 1, source.between(length, v - 1)] {
            for word in [1, -1, v as i32, v as i32 + 1, i32::MIN] {
                all.push((
                    format!("{word} at place {at}, behind the length"),
                    call.changed(|call| call.trail[at] = word),
                ));
            }
        }
    }
    all
}

/// Steps done and allowed up to 2^64 - 1 and one more, those done in each way over the counters; other sums in one way; counters
/// that are more by themselves.
fn steps(source: &mut Source, call: &Call) -> Vec<Damaged> {
    let budget = call.budget;
    let mut edges = vec![(MOST - budget, budget), (MOST, 0), (MOST, 1)];
    if budget > 0 {
        edges.push((MOST - budget + 1, budget));
    }
    let mut sums = vec![(MOST - 1, 1), (MOST, MOST), (HALF, HALF)];
    if call.v <= 12 {
        // the run is short whatever is allowed
        sums.extend([(0, MOST), (1, MOST), (2, MOST - 1), (3, MOST - 3), (HALF - 1, HALF), (HALF, HALF - 1)]);
    }
    let mut pairs: Vec<(Steps, u64)> = Vec::new();
    for (sum, budget) in edges {
        pairs.extend(spreads(source, sum).into_iter().map(|steps| (steps, budget)));
    }
    for (sum, budget) in sums {
        let spreads = spreads(source, sum);
        pairs.push((source.pick(&spreads), budget));
    }
    pairs.extend(too_many(source).into_iter().flat_map(|steps| [(steps, 0), (steps, 1)]));
    let damaged = |(steps, budget): (Steps, u64)| {
        let changed = call.changed(|call| (call.position.steps, call.budget) = (steps, budget));
        (format!("{steps:?} and {budget} more"), changed)
    };
    pairs.into_iter().map(damaged).collect()
}
