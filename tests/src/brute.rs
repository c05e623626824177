//! All instances and all assignments, one after another, where there are few.

use crate::meaning::{decode, satisfies};
use crate::sheet::Sheet;

/// All instances of so many cells, in ascending order.
pub fn all(cells: usize) -> impl Iterator<Item = Vec<u8>> {
    (0u64..1 << cells).map(move |number| (0..cells).map(|cell| (number >> (cells - 1 - cell) & 1) as u8).collect())
}

/// The instances that satisfy marks and formula, in ascending order; each is looked for when it is asked for.
/// Membership cells take part as all others.
pub fn satisfying(sheet: &Sheet) -> impl Iterator<Item = Vec<u8>> + '_ {
    all(sheet.cells()).filter(|bytes| satisfies(sheet, &decode(sheet, bytes).expect("one byte for each cell")))
}

/// All of them.
pub fn instances(sheet: &Sheet) -> Vec<Vec<u8>> {
    satisfying(sheet).collect()
}

/// The least of them (document 02, Change 5).
pub fn least(sheet: &Sheet) -> Option<Vec<u8>> {
    satisfying(sheet).next()
}

/// All assignments of v variables that satisfy the clauses, in ascending order.
pub fn assignments(v: u32, clauses: &[Vec<i32>]) -> Vec<Vec<u8>> {
    first_assignments(v, clauses, usize::MAX)
}

/// The first so many of them. Variables are set in order; a clause is looked at as soon as its last variable is set.
pub fn first_assignments(v: u32, clauses: &[Vec<i32>], most: usize) -> Vec<Vec<u8>> {
    let mut due = vec![Vec::new(); v as usize + 1];
    for clause in clauses {
        let last = clause.iter().map(|literal| literal.unsigned_abs()).max().unwrap_or(0);
        due[last as usize].push(clause);
    }
    let mut found = Vec::new();
    if due[0].is_empty() {
        extend(&due, &mut Vec::new(), &mut found, most);
    }
    found
}

fn extend(due: &[Vec<&Vec<i32>>], values: &mut Vec<u8>, found: &mut Vec<Vec<u8>>, most: usize) {
    if found.len() == most {
        return;
    }
    if values.len() + 1 == due.len() {
        found.push(values.clone());
        return;
    }
    for value in [0, 1] {
        values.push(value);
        if due[values.len()].iter().all(|clause| holds(clause, values)) {
            extend(due, values, found, most);
        }
        values.pop();
    }
}

/// Whether a clause holds a true literal.
pub fn holds(clause: &[i32], values: &[u8]) -> bool {
    let value = |literal: i32| values[literal.unsigned_abs() as usize - 1];
    clause.iter().any(|&literal| value(literal) == u8::from(literal > 0))
}
