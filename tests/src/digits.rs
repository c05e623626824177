//! Clause lists for the digits of a text: literals, and numbers of variables and of clauses, where a digit is added.

use crate::random::Source;

/// The variables on both sides of each further digit, with the first and the last.
const EDGES: [i32; 10] = [1, 9, 10, 99, 100, 999, 1_000, 9_999, 10_000, 16_000];

/// The numbers of clauses on both sides of each further digit.
const COUNTS: [usize; 14] = [0, 1, 9, 10, 99, 100, 999, 1_000, 9_999, 10_000, 99_999, 100_000, 999_999, 1_000_000];

/// A list with its number of variables.
type List = (Vec<i32>, u32);

/// The edges up to the most, each with both signs.
fn literals(most: i32) -> Vec<i32> {
    EDGES.iter().filter(|&&edge| edge <= most).flat_map(|&edge| [edge, -edge]).collect()
}

/// Each literal alone under each v that it is not beyond; each two in one clause, and in two; all in one.
pub fn few() -> Vec<List> {
    let mut lists = Vec::new();
    for v in EDGES {
        lists.extend(literals(v).iter().map(|&literal| (vec![1, literal], v as u32)));
        let all = literals(v);
        lists.push(([vec![all.len() as i32], all].concat(), v as u32));
    }
    for first in literals(16_000) {
        for second in literals(16_000) {
            let v = first.unsigned_abs().max(second.unsigned_abs());
            lists.extend([(vec![2, first, second], v), (vec![1, first, 1, second], v)]);
        }
    }
    lists
}

/// Clauses of one literal, as many as each of the counts: up to 1,000 under each v, then under one v of each length, and
/// beyond 10,000 under the least and the greatest. The literals are all that v allows, in turns; up to 1,000 clauses also -v alone.
pub fn many() -> Vec<List> {
    let mut lists = Vec::new();
    for count in COUNTS {
        let some: &[i32] = match count {
            0..=1_000 => &EDGES,
            1_001..=10_000 => &[9, 99, 999, 9_999, 16_000],
            _ => &[1, 16_000],
        };
        for &v in some {
            lists.push((units(count, &literals(v)), v as u32));
            if count <= 1_000 {
                lists.push((units(count, &[-v]), v as u32));
            }
        }
    }
    lists
}

/// So many clauses of one literal, which are taken in turns.
fn units(count: usize, literals: &[i32]) -> Vec<i32> {
    literals.iter().cycle().take(count).flat_map(|&literal| [1, literal]).collect()
}

/// A random list of up to 60 clauses; v and the literals have each length that there is as often.
pub fn list(source: &mut Source) -> List {
    let v = number(source, 16_000);
    let mut words = Vec::new();
    for _ in 0..source.below(61) {
        let count = source.between(1, 6);
        words.push(count as i32);
        for _ in 0..count {
            let variable = number(source, v) as i32;
            words.push(source.pick(&[variable, -variable]));
        }
    }
    (words, v as u32)
}

/// A number of 1 to the most, whose length is drawn first.
fn number(source: &mut Source, most: usize) -> usize {
    let low = 10_usize.pow(source.below(most.to_string().len()) as u32);
    source.between(low, most.min(10 * low - 1))
}
