//! Walks that are long and make no gate: each of their lists comes to a constant or to one literal, so that giving up at
//! 16,001 variables does not shorten them.

use crate::sheet::{visits, Node, Relation, Sheet};

/// Nodes under construction; the last is the one that matters.
#[derive(Clone)]
struct Nodes(Vec<Node>);

impl Nodes {
    fn push(&mut self, kind: u8, a: u8, b: u8) -> u8 {
        self.0.push(Node { kind, a, b });
        self.last()
    }

    fn last(&self) -> u8 {
        (self.0.len() - 1) as u8
    }

    /// With a tower of so many nodes above the last.
    fn tower(mut self, height: usize, next: impl Fn(u8) -> (u8, u8, u8)) -> Nodes {
        for _ in 0..height {
            let (kind, a, b) = next(self.last());
            self.push(kind, a, b);
        }
        self
    }

    fn closures(self, height: usize) -> Nodes {
        self.tower(height, |below| (11, below, 0)).tower(1, |below| (22, below, 0))
    }

    /// Sort 0 has eight atoms, sort 1 has one; the one relation is a set of sort 1, one cell; all variables are of sort 0.
    fn sheet(self) -> Sheet {
        let cell = Relation { columns: 1, mark: 0, first: 1, second: 0 };
        Sheet { scopes: vec![8, 1], variables: vec![0; 3], relations: vec![cell], nodes: self.0 }
    }
}

fn identity() -> Nodes {
    Nodes(vec![Node { kind: 4, a: 0, b: 0 }])
}

/// 1 in 64 cells.
fn full() -> Nodes {
    let mut nodes = Nodes(Vec::new());
    let atoms = nodes.push(3, 0, 0);
    nodes.push(9, atoms, atoms);
    nodes
}

/// One literal in 64 cells: from the eight atoms to the cell, and from its atom to the eight atoms.
fn one_literal() -> Nodes {
    let mut nodes = Nodes(Vec::new());
    let (atoms, cell, atom) = (nodes.push(3, 0, 0), nodes.push(1, 0, 0), nodes.push(3, 1, 0));
    let (to, from) = (nodes.push(9, atoms, cell), nodes.push(9, atom, atoms));
    nodes.push(8, to, from);
    nodes
}

/// The row of one variable's atom has a literal, the column of another's its opposite, 1 where they cross, else -1.
fn mixed() -> Nodes {
    let mut nodes = one_literal();
    let (literal, atoms, x, y) = (nodes.last(), nodes.push(3, 0, 0), nodes.push(2, 0, 0), nodes.push(2, 1, 0));
    let (row, column) = (nodes.push(9, x, atoms), nodes.push(9, atoms, y));
    let (inside, outside) = (nodes.push(6, literal, row), nodes.push(7, column, literal));
    nodes.push(5, inside, outside);
    nodes
}

/// The sheets, with towers of so many nodes, and as many visits as fit in a number.
pub fn sheets(tower: usize, most: u128) -> Vec<(&'static str, Sheet)> {
    let formula = |nodes: Nodes, kind: u8| nodes.tower(1, |below| (kind, below, if kind <= 21 { below } else { 0 }));
    let mixed = mixed().closures(tower).tower(1, |below| (40, 0, below)).tower(1, |below| (41, 1, below));
    let joins = identity().tower(tower, |below| (8, below, 0)).tower(1, |below| (22, below, 0));
    let bodies = [
        ("closures of the identity", identity().closures(tower)),
        ("closures of a full relation", full().closures(tower)),
        ("closures of one literal", one_literal().closures(tower)),
        ("closures of a literal, its opposite and constants", mixed),
        ("joins with the identity", joins),
        ("at most one of the identity", formula(identity(), 24)),
        ("at most one of one literal", formula(one_literal(), 24)),
        ("equality of the identity", formula(identity(), 20)),
        ("equality of one literal", formula(one_literal(), 20)),
    ];
    bodies.into_iter().map(|(name, body)| (name, filled(body, most))).collect()
}

/// As many walks of a formula as fit: binders of eight atoms over each other and over it, and "and" over such.
fn filled(mut nodes: Nodes, most: u128) -> Sheet {
    let mut levels = vec![(nodes.last(), visits(&nodes.clone().sheet()))];
    while let Some(&(below, cost)) = levels.last().filter(|(_, cost)| 1 + 8 * cost <= most) {
        levels.push((nodes.push(40, 2, below), 1 + 8 * cost));
    }
    let (mut root, mut left) = levels.last().map(|&(level, cost)| (level, most.saturating_sub(cost))).expect("a level");
    for &(level, cost) in levels.iter().rev() {
        while cost < left {
            root = nodes.push(31, root, level);
            left -= cost + 1;
        }
    }
    nodes.sheet()
}

#[test]
fn as_many_visits_as_fit() {
    for (name, sheet) in sheets(140, 1_000_000) {
        assert!(crate::sheet::read(&sheet.bytes()).is_ok(), "{name}");
        assert!(visits(&sheet) > 985_000, "{name}: {} visits", visits(&sheet));
    }
}

#[test]
fn no_gate() {
    for (name, sheet) in sheets(2, 200) {
        let variables = crate::clauses::translate(&sheet).map(|list| list.variables);
        assert_eq!(variables, Ok(1 + 1), "{name}, {} visits", visits(&sheet));
    }
}
