//! Sheets of 200 nodes, each one under the next: the deepest walks that a sheet can have.

use crate::sheet::{Node, Relation, Sheet, LIMIT};

const NODES: usize = 200;

/// First nodes, and one node after the other over the last, up to the most that a sheet has. The two relations are over
/// a sort of scope 1, 2 or 8.
fn chain(sort: u8, first: &[Node], next: impl Fn(usize, u8) -> Node, root: Option<u8>) -> Sheet {
    let relation = Relation { columns: 2, mark: 0, first: sort, second: sort };
    let mut nodes = first.to_vec();
    while nodes.len() + root.iter().len() < NODES {
        nodes.push(next(nodes.len(), (nodes.len() - 1) as u8));
    }
    nodes.extend(root.map(|kind| Node { kind, a: (NODES - 2) as u8, b: 0 }));
    Sheet { scopes: vec![1, 2, 8], variables: vec![0], relations: vec![relation; 2], nodes }
}

/// Ways down where a limited sort makes a difference, or where all is large.
const LIMITED: [&str; 7] = ["closure at scope 8", "union", "join", "not", "for all", "for some", "the atoms for which"];

/// Every way down, with its name, and some once more with all sorts limited.
pub fn sheets() -> Vec<(String, Sheet)> {
    let plain = ways().into_iter().map(|(name, sheet)| (name.to_string(), sheet));
    let limited = ways().into_iter().filter(|(name, _)| LIMITED.contains(name)).map(|(name, mut sheet)| {
        sheet.scopes.iter_mut().for_each(|scope| *scope += LIMIT);
        (format!("{name}, limited"), sheet)
    });
    plain.chain(limited).collect()
}

/// Through one operand, through the first or the second of two, and through binders, whose scope is 1, so that the walk
/// stays short.
fn ways() -> Vec<(&'static str, Sheet)> {
    let node = |kind, a, b| Node { kind, a, b };
    let expression = [node(1, 0, 0)];
    // the union of a relation with itself makes no gate, so that the first union is of two relations
    let expressions = [node(1, 0, 0), node(1, 1, 0)];
    let some = [node(1, 0, 0), node(22, 0, 0)];
    let lone = [node(1, 0, 0), node(24, 0, 0)];
    let set_or_test = |at, below| if at % 2 == 0 { node(12, 0, below) } else { node(22, below, 0) };
    vec![
        ("inverse", chain(2, &expression, |_, below| node(10, below, 0), Some(22))),
        ("closure", chain(0, &expression, |_, below| node(11, below, 0), Some(22))),
        ("closure at scope 8", chain(2, &expression, |_, below| node(11, below, 0), Some(22))),
        ("union", chain(2, &expressions, |_, below| node(5, below, 0), Some(22))),
        ("union, second", chain(2, &expressions, |_, below| node(5, 0, below), Some(22))),
        ("join", chain(1, &expression, |_, below| node(8, below, 0), Some(22))),
        ("join, second", chain(1, &expression, |_, below| node(8, 0, below), Some(22))),
        ("not", chain(2, &some, |_, below| node(30, below, 0), None)),
        ("and", chain(2, &some, |_, below| node(31, below, 1), None)),
        ("iff, second", chain(2, &some, |_, below| node(34, 1, below), None)),
        ("for all", chain(2, &lone, |_, below| node(40, 0, below), None)),
        ("for some", chain(2, &some, |_, below| node(41, 0, below), None)),
        ("the atoms for which", chain(2, &some, set_or_test, None)),
    ]
}
