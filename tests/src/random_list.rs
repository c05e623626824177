//! Random clause lists: good ones, longer ones with the same search, and damaged ones.

use crate::random::Source;

/// A good list with its number of variables: units, twins and opposites among its literals; some whose search turns often.
pub fn list(source: &mut Source) -> (Vec<i32>, u32) {
    if source.chance(1, 4) {
        return turning(source);
    }
    let v = if source.chance(1, 40) { source.between(1, 200) } else { source.between(1, 12) };
    let clauses = source.below(5 * v.min(20) + 2);
    let longest = source.between(1, 5);
    let mut words = Vec::new();
    for _ in 0..clauses {
        let count = source.between(1, longest);
        words.push(count as i32);
        let mut last = literal(source, v);
        for _ in 0..count {
            last = match source.below(12) {
                0 => last,
                1 => -last,
                _ => literal(source, v),
            };
            words.push(last);
        }
    }
    (words, v as u32)
}

/// Clauses of three literals, about as many as leave it open whether all can be true.
pub fn turning(source: &mut Source) -> (Vec<i32>, u32) {
    let v = source.between(5, 12);
    let clauses = source.between(3 * v, 5 * v);
    (three_each(source, v, clauses), v as u32)
}

/// So many clauses of three literals.
pub fn three_each(source: &mut Source, v: usize, clauses: usize) -> Vec<i32> {
    let clause = |source: &mut Source| [3, literal(source, v), literal(source, v), literal(source, v)];
    (0..clauses).flat_map(|_| clause(source)).collect()
}

/// A list with a longer search: as many clauses of three literals for more variables, some with a literal in two places or three, and
/// between them long ones, and some with both signs of a variable.
pub fn knotted(source: &mut Source) -> (Vec<i32>, u32) {
    let v = source.between(20, 48);
    let mut words = Vec::new();
    for _ in 0..source.between(4 * v, 9 * v / 2) {
        let mut clause: Vec<i32> = (0..3).map(|_| literal(source, v)).collect();
        for _ in 0..source.pick(&[0, 0, 1, 2]) {
            let again = source.pick(&clause);
            clause.insert(source.below(clause.len() + 1), again);
        }
        lay(&mut words, &clause);
        if source.chance(1, 6) {
            let count = source.between(4, 20);
            lay(&mut words, &(0..count).map(|_| literal(source, v)).collect::<Vec<_>>());
        }
        if source.chance(1, 6) {
            let count = source.between(2, 5);
            lay(&mut words, &always_true(source, v, count));
        }
    }
    (words, v as u32)
}

/// A clause at the end of a list.
fn lay(words: &mut Vec<i32>, clause: &[i32]) {
    words.push(clause.len() as i32);
    words.extend(clause);
}

/// A clause of two literals or more with both signs of a variable.
fn always_true(source: &mut Source, v: usize, count: usize) -> Vec<i32> {
    let mut clause: Vec<i32> = (0..count - 1).map(|_| literal(source, v)).collect();
    let opposite = -source.pick(&clause);
    clause.insert(source.below(count), opposite);
    clause
}

/// Where a list is padded.
#[derive(Clone, Copy, Debug)]
pub enum Padding {
    Front,
    Behind,
    Between,
}

/// A good list with further clauses that change no step of its search, so that it has exactly so many words: as many as before, or at
/// least three more. Each is always true, or a clause of the list once more, behind it.
pub fn padded(source: &mut Source, list: &[i32], v: u32, words: usize, padding: Padding) -> Vec<i32> {
    let own = crate::search::cut(list, v).expect("a good list");
    let mut placed: Vec<(usize, Vec<i32>)> =
        own.iter().cloned().enumerate().map(|(at, own)| (2 * at + 1, own)).collect();
    let (longest, mut left) = (source.pick(&[2, 3, 8, 40]), words - list.len());
    while left > 0 {
        let at = match padding {
            Padding::Front => 0,
            Padding::Behind => own.len(),
            Padding::Between => source.below(own.len() + 1),
        };
        let clause = match at {
            1.. if source.chance(1, 3) => own[source.below(at)].clone(),
            _ => {
                let count = source.between(2, longest);
                always_true(source, v as usize, count)
            }
        };
        // what is left must take a clause of two literals, or nothing
        let clause = match left - (1 + clause.len()).min(left) {
            rest if rest >= 3 || left == 1 + clause.len() => clause,
            _ => always_true(source, v as usize, if left < 6 { left - 1 } else { 2 }),
        };
        left -= 1 + clause.len();
        placed.push((2 * at, clause));
    }
    placed.sort_by_key(|(at, _)| *at);
    let mut words = Vec::new();
    placed.iter().for_each(|(_, clause)| lay(&mut words, clause));
    words
}

fn literal(source: &mut Source, v: usize) -> i32 {
    let variable = source.between(1, v) as i32;
    source.pick(&[variable, -variable])
}

/// A list that a sheet's translation or `list` gave, with one thing changed.
pub fn damage(source: &mut Source, words: &mut Vec<i32>, v: &mut u32) {
    let at = if words.is_empty() { 0 } else { source.below(words.len()) };
    let (within, beyond) = (*v as i32, (*v as i32).wrapping_add(1));
    let word = source.pick(&[
        0,
        1,
        -1,
        2,
        3,
        -3,
        within,
        within.wrapping_neg(),
        beyond,
        beyond.wrapping_neg(),
        i32::MIN,
        i32::MIN + 1,
        i32::MAX,
    ]);
    match source.below(8) {
        0..=3 if !words.is_empty() => words[at] = word,
        4 => words.truncate(at),
        5 => words.push(word),
        6 => words.insert(at, word),
        _ => {
            let (less, more) = (v.saturating_sub(1), v.saturating_add(1));
            *v = source.pick(&[0, 1, less, more, 16_000, 16_001, 1 << 31, u32::MAX]);
        }
    }
}

/// A budget: none, one, few, many.
pub fn budget(source: &mut Source) -> u64 {
    let few = source.below(20) as u64;
    source.pick(&[0, 1, few, few, 1_000, 1_000_000, u64::MAX])
}
