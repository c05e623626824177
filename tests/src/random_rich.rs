//! Random sheets rich in what OR strikes out: in all kinds of lists constants, one literal many times, its opposite and
//! other literals stand side by side.

use crate::random::Source;
use crate::random_limits::limit;
use crate::sheet::{Node, Relation, Sheet};

/// All expressions are over one sort: r is a set, t is the one cell of a set of another sort, m a relation.
const R: u8 = 0;
const T: u8 = 1;
const M: u8 = 2;

/// The variables that the root binds, and the one that other binders bind.
const OUTER: [u8; 2] = [0, 1];
const INNER: u8 = 2;

/// No deep expression is begun past this number of nodes.
const NODES: usize = 120;

struct Rich<'s> {
    source: &'s mut Source,
    sheet: Sheet,
    /// The sets so far.
    sets: Vec<u8>,
}

/// A sheet of up to so many atoms, or of three, which then has no m, so that it stays small.
pub fn rich(source: &mut Source, scope: usize) -> Sheet {
    let atoms = source.between(2, scope.max(3));
    let mut relation = |columns, first| Relation { columns, mark: source.pick(&[0, 0, 0, 1, 2]), first, second: 0 };
    let mut relations = vec![relation(1, 0), relation(1, 1), relation(2, 0)];
    relations.truncate(if atoms > scope { 2 } else { source.between(2, 3) });
    let mut sheet = Sheet { scopes: vec![atoms as u8, 1], variables: vec![0; 3], relations, nodes: Vec::new() };
    limit(source, &mut sheet);
    let mut rich = Rich { source, sheet, sets: Vec::new() };
    let depth = rich.source.between(1, 3);
    let mut root = rich.formula(depth);
    for variable in OUTER {
        root = rich.binder(variable, root);
    }
    rich.sheet
}

impl Rich<'_> {
    fn push(&mut self, kind: u8, a: u8, b: u8) -> u8 {
        self.sheet.nodes.push(Node { kind, a, b });
        (self.sheet.nodes.len() - 1) as u8
    }

    fn binder(&mut self, variable: u8, body: u8) -> u8 {
        let kind = self.source.between(40, 41) as u8;
        self.push(kind, variable, body)
    }

    fn outer_variable(&mut self) -> u8 {
        let variable = self.source.pick(&OUTER);
        self.push(2, variable, 0)
    }

    /// A set, at times an earlier one.
    fn set(&mut self, depth: usize) -> u8 {
        if !self.sets.is_empty() && self.source.chance(1, 5) {
            return self.source.pick(&self.sets.clone());
        }
        let deep = depth > 0 && self.sheet.nodes.len() < NODES;
        let set = if deep { self.deep_set(depth - 1) } else { self.small_set() };
        self.sets.push(set);
        set
    }

    /// 1, -1, both, the cells of r, or the cell of t or its opposite for each atom.
    fn small_set(&mut self) -> u8 {
        match self.source.below(9) {
            0 => self.push(3, 0, 0),
            1 => {
                let all = self.push(3, 0, 0);
                self.push(7, all, all)
            }
            2 => self.outer_variable(),
            3..=4 => self.push(1, R, 0),
            _ => {
                let t = self.push(1, T, 0);
                let kind = self.source.between(22, 23) as u8;
                let body = self.push(kind, t, 0);
                self.push(12, INNER, body)
            }
        }
    }

    fn deep_set(&mut self, depth: usize) -> u8 {
        match self.source.below(8) {
            0..=2 => {
                let mut patched = self.set(depth);
                for variable in OUTER {
                    let (other, apart) = (self.set(depth), self.push(2, variable, 0));
                    patched = self.patchwork(other, patched, apart);
                }
                patched
            }
            3..=4 => {
                // through a full relation the middles are the set's own cells
                let set = self.set(depth);
                let relation = if self.source.chance(1, 2) { self.full() } else { self.relation(depth) };
                let (a, b) = self.source.pick(&[(set, relation), (relation, set)]);
                self.push(8, a, b)
            }
            5 => {
                let body = self.formula(depth);
                self.push(12, INNER, body)
            }
            _ => {
                let (a, b) = (self.set(depth), self.set(depth));
                let kind = self.source.between(5, 7) as u8;
                self.push(kind, a, b)
            }
        }
    }

    /// The cells of a where a constant is 1, those of b where it is -1.
    fn patchwork(&mut self, a: u8, b: u8, constant: u8) -> u8 {
        let inside = self.push(6, a, constant);
        let outside = self.push(7, b, constant);
        self.push(5, inside, outside)
    }

    fn full(&mut self) -> u8 {
        let all = self.push(3, 0, 0);
        self.push(9, all, all)
    }

    fn relation(&mut self, depth: usize) -> u8 {
        let deep = depth > 0 && self.sheet.nodes.len() < NODES;
        match self.source.below(if deep { 8 } else { 4 }) {
            0 => self.push(4, 0, 0),
            1..=2 if self.sheet.relations.len() > M as usize => self.push(1, M, 0),
            1..=3 => {
                let set = self.set(depth);
                let other = if self.source.chance(1, 2) { self.push(3, 0, 0) } else { self.set(depth) };
                let (a, b) = self.source.pick(&[(set, other), (other, set)]);
                self.push(9, a, b)
            }
            4..=5 => {
                let (a, b) = (self.relation(depth - 1), self.relation(depth - 1));
                let identity = self.push(4, 0, 0);
                self.patchwork(a, b, identity)
            }
            6 => {
                let a = self.relation(depth - 1);
                let kind = self.source.between(10, 11) as u8;
                self.push(kind, a, 0)
            }
            _ => {
                let (a, b) = (self.relation(depth - 1), self.relation(depth - 1));
                let kind = self.source.between(5, 8) as u8;
                self.push(kind, a, b)
            }
        }
    }

    fn formula(&mut self, depth: usize) -> u8 {
        match self.source.below(if depth == 0 { 6 } else { 9 }) {
            0..=3 => {
                let sets = self.source.chance(2, 3);
                let mut operand = || if sets { self.set(depth) } else { self.relation(depth) };
                let (a, b) = (operand(), operand());
                let kind = self.source.between(20, 24) as u8;
                self.push(kind, a, if kind <= 21 { b } else { 0 })
            }
            4..=5 => {
                // the cell of the atom, or its opposite
                let set = self.set(depth);
                let atom = self.push(2, INNER, 0);
                let mut body = self.push(21, atom, set);
                if self.source.chance(1, 3) {
                    body = self.push(30, body, 0);
                }
                self.binder(INNER, body)
            }
            6 => {
                let a = self.formula(depth - 1);
                self.binder(INNER, a)
            }
            _ => {
                let (a, b) = (self.formula(depth - 1), self.formula(depth - 1));
                let kind = self.source.between(31, 34) as u8;
                self.push(kind, a, b)
            }
        }
    }
}
