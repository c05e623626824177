//! Sheets in which a variable is bound anew under a binder of itself, for each pair of binders: the trap of a
//! binder that lets the outer value through, or loses it for what stands beside it.

use crate::sheet::{Node, Relation, Sheet};

/// For each pair of binders, each connective and both orders: outer x: (x in r0) op (inner x: (x in r1)).
pub fn sheets(scope: u8) -> Vec<Sheet> {
    let mut sheets = Vec::new();
    for outer in [12, 40, 41] {
        for inner in [12, 40, 41] {
            for connective in 31..=34 {
                for swapped in [false, true] {
                    sheets.push(sheet(scope, outer, inner, connective, swapped));
                }
            }
        }
    }
    sheets
}

fn sheet(scope: u8, outer: u8, inner: u8, connective: u8, swapped: bool) -> Sheet {
    let set = Relation { columns: 1, mark: 0, first: 0, second: 0 };
    let mut nodes = Vec::new();
    let mut push = |kind, a, b| {
        nodes.push(Node { kind, a, b });
        nodes.len() as u8 - 1
    };
    let x = push(2, 0, 0);
    let (first, second) = (push(1, 0, 0), push(1, 1, 0));
    let (outside, inside) = (push(21, x, first), push(21, x, second));
    let mut bound = push(inner, 0, inside);
    if inner == 12 {
        // the set of the inner x, and the outer x beside it
        bound = push(21, x, bound);
    }
    let body = if swapped { push(connective, bound, outside) } else { push(connective, outside, bound) };
    let root = push(outer, 0, body);
    if outer == 12 {
        push(20, root, second);
    }
    Sheet { scopes: vec![scope], variables: vec![0], relations: vec![set, set], nodes }
}
