//! Solvers asked for an instance ahead of a given one (document 02, Change 5): for sheets of any number of cells.

use super::agree;
use crate::solver::{solve, Verdict};

/// A clause text of v variables with clauses added: the cells are ahead of these, or are these where that is allowed.
/// The text, and its variables.
fn ahead(text: &str, v: u32, cells: &[u8], or_equal: bool) -> (String, u32) {
    let (header, clauses) = text.split_once('\n').expect("a header");
    let (mut number, mut added) = (clauses.lines().count(), String::new());
    let mut clause = |literals: &[i32]| {
        literals.iter().for_each(|literal| added += &format!("{literal} "));
        added += "0\n";
        number += 1;
    };
    // all before this cell are equal, and they are ahead from here on
    let open = |at: usize| v as i32 + 1 + at as i32;
    clause(&[open(0)]);
    for (at, &cell) in cells.iter().enumerate() {
        let variable = at as i32 + 2;
        if cell == 1 {
            clause(&[-open(at), -variable, open(at + 1)]);
        } else {
            clause(&[-open(at), -variable]);
            clause(&[-open(at), open(at + 1)]);
        }
    }
    let last = open(cells.len());
    clause(&[if or_equal { last } else { -last }]);
    assert!(header.starts_with("p cnf "), "{header}");
    (format!("p cnf {last} {number}\n{clauses}{added}"), last as u32)
}

/// That by a solver no satisfying assignment has cells ahead of these; where it may have these, it has them.
pub fn nothing_ahead(
    solver: &str,
    (text, v): (&str, u32),
    cells: &[u8],
    asked: impl Fn() -> String,
) -> Result<(), String> {
    let ask = |or_equal| {
        let (text, v) = ahead(text, v, cells, or_equal);
        let verdict = solve(solver, text.as_bytes(), v)?;
        let cells_of = |values: Vec<u8>| values[1..1 + cells.len()].to_vec();
        Ok::<_, String>(match verdict {
            Verdict::Satisfiable(values) => Some(cells_of(values)),
            Verdict::Unsatisfiable => None,
        })
    };
    agree(ask(false)?, None, || format!("{solver} asked for one ahead, {}", asked()))?;
    agree(ask(true)?, Some(cells.to_vec()), || format!("{solver} asked for it, {}", asked()))
}
