//! Random sheets: well-formed ones grown by shape, loose ones, long walks, and damage.

use crate::random::Source;
use crate::random_limits::limit;
use crate::random_rich::rich;
use crate::sheet::{fields, Field, Node, Relation, Shape, Sheet};
use std::collections::BTreeSet;

/// How large a sheet is to be, and whether it is to be rich in what OR strikes out (`random_rich.rs`).
#[derive(Clone, Copy, Debug)]
pub struct Style {
    pub sorts: usize,
    pub scope: usize,
    pub relations: usize,
    pub depth: usize,
    pub rich: bool,
}

/// Few cells, for brute force.
pub const SMALL: Style = Style { sorts: 2, scope: 2, relations: 2, depth: 4, rich: false };
pub const USUAL: Style = Style { sorts: 3, scope: 4, relations: 4, depth: 5, rich: false };
pub const LARGE: Style = Style { sorts: 8, scope: 8, relations: 16, depth: 5, rich: false };

/// One of the styles, mostly the usual one; some are rich.
pub fn style(source: &mut Source) -> Style {
    let style = match source.below(8) {
        0..=2 => SMALL,
        3..=6 => USUAL,
        _ => LARGE,
    };
    Style { rich: source.chance(1, 3), ..style }
}

/// No more nodes are begun past this number; what is under way still finishes below 200.
const NODES: usize = 150;

/// A sheet under construction. `free` holds the variables that a node leaves unbound.
struct Growth<'s> {
    source: &'s mut Source,
    sheet: Sheet,
    shapes: Vec<Shape>,
    free: Vec<BTreeSet<u8>>,
}

/// A well-formed sheet. Few are refused, namely those whose walk is too long.
pub fn sheet(source: &mut Source, style: Style) -> Sheet {
    if style.rich {
        return rich(source, style.scope);
    }
    let declared = declarations(source, style);
    grown(source, declared, style.depth)
}

/// A sheet with these declarations and a formula of up to so many levels.
pub fn grown(source: &mut Source, sheet: Sheet, depth: usize) -> Sheet {
    let mut growth = Growth { source, sheet, shapes: Vec::new(), free: Vec::new() };
    for _ in 0..growth.source.below(3) {
        // nodes that the root need not reach, where any variable may be free
        let every = (0..growth.sheet.variables.len() as u8).collect();
        let shape = growth.some_shape();
        growth.expression(shape, &every, 2);
        growth.formula(&every, 2);
    }
    let depth = growth.source.between(1, depth);
    growth.fresh_formula(&BTreeSet::new(), depth);
    growth.sheet
}

fn declarations(source: &mut Source, style: Style) -> Sheet {
    let sorts = source.between(1, style.sorts);
    let mut sort = || source.below(sorts) as u8;
    let (mut variables, mut relations) = (Vec::new(), Vec::new());
    (0..4).for_each(|_| variables.push(sort()));
    (0..style.relations).for_each(|_| relations.push((sort(), sort())));
    variables.truncate(source.below(5));
    relations.truncate(source.between(1, style.relations));
    let scopes = (0..sorts).map(|_| source.between(1, style.scope) as u8).collect();
    let mut relation = |&(first, second): &(u8, u8)| {
        let (columns, mark) = (source.between(1, 2) as u8, source.pick(&[0, 0, 1, 2]));
        Relation { columns, mark, first, second: if columns == 1 { 0 } else { second } }
    };
    let relations = relations.iter().map(&mut relation).collect();
    let mut sheet = Sheet { scopes, variables, relations, nodes: Vec::new() };
    limit(source, &mut sheet);
    sheet
}

impl Growth<'_> {
    fn push(&mut self, kind: u8, a: u8, b: u8, shape: Shape) -> u8 {
        let mut free = BTreeSet::new();
        let (first, second) = fields(kind).expect("a kind");
        for (field, value) in [(first, a), (second, b)] {
            if field == Field::Node {
                free.extend(self.free[value as usize].iter());
            }
        }
        match kind {
            2 => drop(free.insert(a)),
            12 | 40 | 41 => drop(free.remove(&a)),
            _ => {}
        }
        self.sheet.nodes.push(Node { kind, a, b });
        self.shapes.push(shape);
        self.free.push(free);
        (self.sheet.nodes.len() - 1) as u8
    }

    /// A shape that some relation has, mostly; else any.
    fn some_shape(&mut self) -> Shape {
        if self.source.chance(3, 4) {
            return self.source.pick(&self.sheet.relations).shape();
        }
        let (first, second) = (self.some_sort(), self.some_sort());
        self.source.pick(&[Shape::Set(first), Shape::Pairs(first, second)])
    }

    fn some_sort(&mut self) -> u8 {
        self.source.below(self.sheet.scopes.len()) as u8
    }

    /// An earlier node of the shape, at times.
    fn shared(&mut self, shape: Shape, bound: &BTreeSet<u8>) -> Option<u8> {
        let fits = |at: &usize| self.shapes[*at] == shape && self.free[*at].is_subset(bound);
        let nodes: Vec<usize> = (0..self.shapes.len()).filter(fits).collect();
        (!nodes.is_empty() && self.source.chance(1, 5)).then(|| self.source.pick(&nodes) as u8)
    }

    fn depth(&self, depth: usize) -> usize {
        if self.sheet.nodes.len() > NODES {
            0
        } else {
            depth
        }
    }

    fn expression(&mut self, shape: Shape, bound: &BTreeSet<u8>, depth: usize) -> u8 {
        let depth = self.depth(depth);
        if let Some(node) = self.shared(shape, bound) {
            return node;
        }
        if depth == 0 || self.source.chance(1, 4) {
            return self.leaf(shape, bound);
        }
        match self.source.below(7) {
            0..=2 => {
                let a = self.expression(shape, bound, depth - 1);
                let b = self.expression(shape, bound, depth - 1);
                let kind = self.source.between(5, 7) as u8;
                self.push(kind, a, b, shape)
            }
            3..=4 => self.join(shape, bound, depth - 1),
            _ => match shape {
                Shape::Set(sort) => self.comprehension(sort, bound, depth - 1),
                _ => self.pairs(shape, bound, depth - 1),
            },
        }
    }

    /// A relation, variable, sort or identity of the shape, or a product of two sorts.
    fn leaf(&mut self, shape: Shape, bound: &BTreeSet<u8>) -> u8 {
        let relations =
            (0..self.sheet.relations.len() as u8).filter(|&r| self.sheet.relations[r as usize].shape() == shape);
        let mut leaves: Vec<(u8, u8)> = relations.flat_map(|relation| [(1, relation); 3]).collect();
        match shape {
            Shape::Set(sort) => {
                let of_sort = bound.iter().filter(|&&v| self.sheet.variables[v as usize] == sort);
                leaves.extend(of_sort.flat_map(|&variable| [(2, variable); 3]));
                leaves.push((3, sort));
            }
            Shape::Pairs(first, second) if first == second => leaves.push((4, first)),
            _ => {}
        }
        match (shape, leaves.is_empty()) {
            (Shape::Pairs(first, second), true) => {
                let a = self.push(3, first, 0, Shape::Set(first));
                let b = self.push(3, second, 0, Shape::Set(second));
                self.push(9, a, b, shape)
            }
            _ => {
                let (kind, item) = self.source.pick(&leaves);
                self.push(kind, item, 0, shape)
            }
        }
    }

    fn join(&mut self, shape: Shape, bound: &BTreeSet<u8>, depth: usize) -> u8 {
        let middle = self.some_sort();
        let (a, b) = match shape {
            Shape::Set(sort) if self.source.chance(1, 2) => (Shape::Set(middle), Shape::Pairs(middle, sort)),
            Shape::Set(sort) => (Shape::Pairs(sort, middle), Shape::Set(middle)),
            Shape::Pairs(first, second) => (Shape::Pairs(first, middle), Shape::Pairs(middle, second)),
            Shape::Formula => unreachable!("no expression"),
        };
        let a = self.expression(a, bound, depth);
        let b = self.expression(b, bound, depth);
        self.push(8, a, b, shape)
    }

    fn comprehension(&mut self, sort: u8, bound: &BTreeSet<u8>, depth: usize) -> u8 {
        let of_sort = |&v: &u8| self.sheet.variables[v as usize] == sort;
        let variables: Vec<u8> = (0..self.sheet.variables.len() as u8).filter(of_sort).collect();
        if variables.is_empty() {
            return self.leaf(Shape::Set(sort), bound);
        }
        let variable = self.source.pick(&variables);
        let body = self.body(variable, bound, depth);
        self.push(12, variable, body, Shape::Set(sort))
    }

    /// The body of a binder. A variable that is bound already may be bound anew.
    fn body(&mut self, variable: u8, bound: &BTreeSet<u8>, depth: usize) -> u8 {
        let mut inner = bound.clone();
        inner.insert(variable);
        self.formula(&inner, depth)
    }

    /// A product, inverse or closure.
    fn pairs(&mut self, shape: Shape, bound: &BTreeSet<u8>, depth: usize) -> u8 {
        let Shape::Pairs(first, second) = shape else { unreachable!("no relation") };
        match self.source.below(3) {
            0 => {
                let a = self.expression(Shape::Set(first), bound, depth);
                let b = self.expression(Shape::Set(second), bound, depth);
                self.push(9, a, b, shape)
            }
            1 if first == second => {
                let a = self.expression(shape, bound, depth);
                self.push(11, a, 0, shape)
            }
            _ => {
                let a = self.expression(Shape::Pairs(second, first), bound, depth);
                self.push(10, a, 0, shape)
            }
        }
    }

    fn formula(&mut self, bound: &BTreeSet<u8>, depth: usize) -> u8 {
        match self.shared(Shape::Formula, bound) {
            Some(node) => node,
            None => self.fresh_formula(bound, depth),
        }
    }

    /// A formula that is a new node.
    fn fresh_formula(&mut self, bound: &BTreeSet<u8>, depth: usize) -> u8 {
        let depth = self.depth(depth);
        let choice = if depth == 0 { self.source.below(5) } else { self.source.below(16) };
        let below = depth.saturating_sub(1);
        match choice {
            0..=4 => {
                let kind = 20 + choice as u8;
                let shape = self.some_shape();
                let a = self.expression(shape, bound, below);
                let b = if kind <= 21 { self.expression(shape, bound, below) } else { 0 };
                self.push(kind, a, b, Shape::Formula)
            }
            5 => {
                let a = self.formula(bound, below);
                self.push(30, a, 0, Shape::Formula)
            }
            6..=10 => {
                let a = self.formula(bound, below);
                let b = self.formula(bound, below);
                let kind = self.source.between(31, 34) as u8;
                self.push(kind, a, b, Shape::Formula)
            }
            _ if self.sheet.variables.is_empty() => self.fresh_formula(bound, below),
            _ => {
                let variable = self.source.below(self.sheet.variables.len()) as u8;
                let body = self.body(variable, bound, below);
                let kind = self.source.between(40, 41) as u8;
                self.push(kind, variable, body, Shape::Formula)
            }
        }
    }
}

/// A sheet of known kinds whose operands are drawn without a look at their shapes.
pub fn loose(source: &mut Source) -> Sheet {
    let mut sheet = declarations(source, USUAL);
    for at in 0..source.between(1, 12) {
        let kind = source.pick(&KINDS);
        let (a, b) = fields(kind).expect("a kind");
        let mut value = |field| {
            let below = match field {
                Field::Unused => 1,
                Field::Node => at.max(1),
                Field::Relation => sheet.relations.len(),
                Field::Variable => sheet.variables.len().max(1),
                Field::Sort => sheet.scopes.len(),
            };
            source.below(below) as u8
        };
        let node = Node { kind, a: value(a), b: value(b) };
        sheet.nodes.push(node);
    }
    sheet
}

pub const KINDS: [u8; 24] = [1, 2, 3, 4, 5, 6, 7, 8, 9, 10, 11, 12, 20, 21, 22, 23, 24, 30, 31, 32, 33, 34, 40, 41];

/// A sheet whose root's walk takes exactly so many visits, 2 or more.
pub fn walk_of(visits: u128) -> Sheet {
    let relation = Relation { columns: 1, mark: 0, first: 0, second: 0 };
    let nodes = vec![Node { kind: 1, a: 0, b: 0 }, Node { kind: 22, a: 0, b: 0 }];
    let mut sheet = Sheet { scopes: vec![2], variables: vec![], relations: vec![relation], nodes };
    // from the figure down to 2: an even one is "not" over one less, an odd one "and" over twice its half
    let mut kinds = Vec::new();
    let mut left = visits;
    while left > 2 {
        let double = left % 2 == 1 && left >= 5;
        kinds.push(if double { 31 } else { 30 });
        left = if double { (left - 1) / 2 } else { left - 1 };
    }
    for kind in kinds.into_iter().rev() {
        let last = (sheet.nodes.len() - 1) as u8;
        sheet.nodes.push(Node { kind, a: last, b: if kind == 31 { last } else { 0 } });
    }
    sheet
}

/// Binders over each other and a tower of "not" in the innermost: a long walk that makes few gates.
pub fn long_walk(scope: u8, tower: usize) -> Sheet {
    let relation = Relation { columns: 1, mark: 0, first: 0, second: 0 };
    let mut nodes = vec![Node { kind: 2, a: 0, b: 0 }, Node { kind: 1, a: 0, b: 0 }, Node { kind: 21, a: 0, b: 1 }];
    for _ in 0..tower {
        nodes.push(Node { kind: 30, a: (nodes.len() - 1) as u8, b: 0 });
    }
    for variable in 0..4 {
        nodes.push(Node { kind: 40 + variable % 2, a: variable, b: (nodes.len() - 1) as u8 });
    }
    Sheet { scopes: vec![scope], variables: vec![0; 4], relations: vec![relation], nodes }
}

/// An instance of so many cells.
pub fn instance(source: &mut Source, cells: usize) -> Vec<u8> {
    (0..cells).map(|_| source.below(2) as u8).collect()
}

/// A sheet whose list has exactly so many gates: with the constant and three cells, four variables more.
pub fn gates_of(gates: usize) -> Sheet {
    let relation = |first| Relation { columns: 1, mark: 0, first, second: 0 };
    // "some" of one cell makes no gate, of two cells one
    let mut nodes = vec![Node { kind: 1, a: 0, b: 0 }, Node { kind: 22, a: 0, b: 0 }];
    nodes.extend([Node { kind: 1, a: 1, b: 0 }, Node { kind: 22, a: 2, b: 0 }]);
    let mut twice = Vec::new();
    let mut left = gates;
    while left > 1 {
        twice.push(left % 2 == 1);
        left = if left % 2 == 1 { (left - 1) / 2 } else { left - 1 };
    }
    for twice in twice.into_iter().rev() {
        let last = (nodes.len() - 1) as u8;
        nodes.push(Node { kind: 32, a: last, b: if twice { last } else { 1 } });
    }
    Sheet { scopes: vec![1, 2], variables: vec![], relations: vec![relation(0), relation(1)], nodes }
}

/// A tower of closures at scope 8 under four binders: 1,896 gates for each closure in each of 4,096 walks.
pub fn closures(tower: usize) -> Sheet {
    let relation = Relation { columns: 2, mark: 0, first: 0, second: 0 };
    let mut nodes = vec![Node { kind: 1, a: 0, b: 0 }];
    for _ in 0..tower {
        nodes.push(Node { kind: 11, a: (nodes.len() - 1) as u8, b: 0 });
    }
    nodes.push(Node { kind: 22, a: (nodes.len() - 1) as u8, b: 0 });
    for variable in 0..4 {
        nodes.push(Node { kind: 40 + variable % 2, a: variable, b: (nodes.len() - 1) as u8 });
    }
    Sheet { scopes: vec![8], variables: vec![0; 4], relations: vec![relation], nodes }
}

/// Each of n atoms has exactly one of m, and none of them is shared: none where n is above m, after a long
/// search. Free sets ahead of the two relations double it for each of their cells.
pub fn pigeonhole(idle: u8, n: u8, m: u8) -> Sheet {
    let set = Relation { columns: 1, mark: 0, first: 0, second: 0 };
    let relation = |mark, first, second| Relation { columns: 2, mark, first, second };
    let mut relations = vec![set; idle as usize];
    relations.extend([relation(2, 0, 1), relation(1, 1, 0)]);
    let node = |kind, a, b| Node { kind, a, b };
    // the first relation is the inverse of the second, in which each row has at most one
    let nodes = vec![node(1, idle, 0), node(1, idle + 1, 0), node(10, 1, 0), node(20, 0, 2)];
    Sheet { scopes: vec![n, m], variables: vec![], relations, nodes }
}
