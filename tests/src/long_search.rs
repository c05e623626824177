//! Small sheets with a long search, of as many steps as one wants.

use crate::sheet::{Node, Relation, Sheet};

/// A set of two cells, of which exactly one is 1, all or none: none after 10 steps. Sets ahead of it, each with its scope and
/// its mark, are all gone through, the last first:
///
/// | Scope n, mark | Steps where those behind it take t |
/// |---|---|
/// | 0 | t times 2^n |
/// | 1 | n + 1 times t, and n (n - 1) / 2 |
/// | 2 | n times t, and n (n - 1) / 2 + 1 |
///
/// Each of the forced cells, up to 8, takes one more. With `late`, a cell ahead of all makes it true, after the search
/// of all that is left without it: found after as many steps, 8 and one for each cell of free sets ahead.
pub fn long(ahead: &[(u8, u8)], forced: u8, late: bool) -> Sheet {
    let mut scopes = vec![1, 2];
    let mut sort = |scope: u8| match scopes.iter().position(|&other| other == scope) {
        Some(at) => at as u8,
        None => {
            scopes.push(scope);
            scopes.len() as u8 - 1
        }
    };
    let set = |first, mark| Relation { columns: 1, mark, first, second: 0 };
    let mut relations = if late { vec![set(0, 0)] } else { Vec::new() };
    relations.extend(ahead.iter().map(|&(scope, mark)| set(sort(scope), mark)));
    let last = relations.len() as u8;
    relations.push(set(1, 2));
    if forced > 0 {
        // exactly one in each row of one cell
        relations.push(Relation { columns: 2, mark: 2, first: sort(forced), second: 0 });
    }
    let node = |kind, a, b| Node { kind, a, b };
    let mut nodes = vec![node(1, last, 0), node(24, 0, 0), node(30, 1, 0), node(23, 0, 0), node(32, 2, 3)];
    if late {
        nodes.extend([node(1, 0, 0), node(22, 5, 0), node(32, 4, 6)]);
    }
    Sheet { scopes, variables: vec![], relations, nodes }
}

/// None after 15,625 times 2^n steps.
pub fn of_15_625(n: u8, forced: u8) -> Sheet {
    long(&[(n, 0), (3, 2), (3, 1), (7, 1), (4, 0)], forced, false)
}

/// Two cases soon, without an element in the sets ahead from one on; and none else, which takes as long as `long` and more. The
/// sets before that one have them in each of their ways.
pub fn early(ahead: &[(u8, u8)], from: u8) -> Sheet {
    let mut sheet = long(ahead, 0, false);
    let mut push = |kind, a, b| {
        sheet.nodes.push(Node { kind, a, b });
        sheet.nodes.len() as u8 - 1
    };
    let mut none = |number| {
        let set = push(1, number, 0);
        push(23, set, 0)
    };
    let each: Vec<u8> = (from..ahead.len() as u8).map(&mut none).collect();
    let all = each.into_iter().reduce(|all, one| push(31, all, one)).expect("a set ahead");
    push(32, 4, all);
    sheet
}
