//! Reading a sheet (document 01, "The sheet", "Kinds and meanings", numbers 1 to 9; scopes as Change 8 has them).

use std::collections::BTreeSet;

/// The numbers of the table "Answers that decline".
pub const VERSION: u32 = 1;
pub const LENGTH: u32 = 2;
pub const COUNT: u32 = 3;
pub const SCOPE: u32 = 4;
pub const DECLARATION: u32 = 5;
pub const NODE: u32 = 6;
pub const SHAPE: u32 = 7;
pub const ROOT: u32 = 8;
pub const WALK: u32 = 9;
pub const SIZE: u32 = 10;
pub const CELLS: u32 = 11;
pub const LIST: u32 = 12;
pub const SHORT: u32 = 13;
pub const STATE: u32 = 14;

/// The most node visits that a root's walk may take.
pub const VISITS: u128 = 1_000_000;

/// What a scope byte has more than the most atoms of a limited sort (document 02, Change 8).
pub const LIMIT: u8 = 128;

#[derive(Clone, Copy, Debug, PartialEq, Eq)]
pub struct Relation {
    pub columns: u8,
    pub mark: u8,
    pub first: u8,
    pub second: u8,
}

#[derive(Clone, Copy, Debug, PartialEq, Eq)]
pub struct Node {
    pub kind: u8,
    pub a: u8,
    pub b: u8,
}

/// The records of the four blocks, as they stand.
#[derive(Clone, Debug, PartialEq, Eq)]
pub struct Sheet {
    pub scopes: Vec<u8>,
    pub variables: Vec<u8>,
    pub relations: Vec<Relation>,
    pub nodes: Vec<Node>,
}

/// What a node stands for: a set of a sort, a relation between two sorts, or a formula.
#[derive(Clone, Copy, Debug, PartialEq, Eq)]
pub enum Shape {
    Set(u8),
    Pairs(u8, u8),
    Formula,
}

/// What a field of a node holds.
#[derive(Clone, Copy, Debug, PartialEq, Eq)]
pub enum Field {
    Unused,
    Node,
    Relation,
    Variable,
    Sort,
}

/// The fields a and b of a kind; none for an unknown kind.
pub fn fields(kind: u8) -> Option<(Field, Field)> {
    use Field::*;
    match kind {
        1 => Some((Relation, Unused)),
        2 => Some((Variable, Unused)),
        3 | 4 => Some((Sort, Unused)),
        5..=9 | 20 | 21 | 31..=34 => Some((Node, Node)),
        10 | 11 | 22..=24 | 30 => Some((Node, Unused)),
        12 | 40 | 41 => Some((Variable, Node)),
        _ => None,
    }
}

impl Relation {
    /// The sort of each column.
    pub fn sorts(&self) -> Vec<u8> {
        match self.columns {
            1 => vec![self.first],
            _ => vec![self.first, self.second],
        }
    }

    pub fn shape(&self) -> Shape {
        match self.columns {
            1 => Shape::Set(self.first),
            _ => Shape::Pairs(self.first, self.second),
        }
    }
}

impl Sheet {
    /// The atoms of a sort; of a limited one the most that it may have.
    pub fn scope(&self, sort: u8) -> usize {
        (self.scopes[sort as usize] % LIMIT) as usize
    }

    pub fn is_limited(&self, sort: u8) -> bool {
        self.scopes[sort as usize] > LIMIT
    }

    /// The limited sorts, ascending.
    pub fn limited(&self) -> impl Iterator<Item = u8> + '_ {
        (0..self.scopes.len() as u8).filter(|&sort| self.is_limited(sort))
    }

    /// The membership cells.
    pub fn memberships(&self) -> usize {
        self.limited().map(|sort| self.scope(sort)).sum()
    }

    /// The atoms of a variable's sort, or the most that it may have.
    pub fn range(&self, variable: u8) -> usize {
        self.scope(self.variables[variable as usize])
    }

    /// The rows and columns of a shape; a set has one row.
    pub fn extent(&self, shape: Shape) -> (usize, usize) {
        match shape {
            Shape::Set(sort) => (1, self.scope(sort)),
            Shape::Pairs(first, second) => (self.scope(first), self.scope(second)),
            Shape::Formula => (0, 0),
        }
    }

    /// The cells of a relation.
    pub fn cells_of(&self, relation: &Relation) -> usize {
        let (rows, columns) = self.extent(relation.shape());
        rows * columns
    }

    /// The cells of an instance: the membership cells, then those of all relations.
    pub fn cells(&self) -> usize {
        self.cells_before(self.relations.len())
    }

    /// The cells ahead of a relation's.
    pub fn cells_before(&self, relation: usize) -> usize {
        let earlier: usize = self.relations[..relation].iter().map(|relation| self.cells_of(relation)).sum();
        self.memberships() + earlier
    }

    /// The bytes of each block.
    pub fn blocks(&self) -> [Vec<u8>; 4] {
        let relation = |r: &Relation| [r.columns, r.mark, r.first, r.second];
        let node = |n: &Node| [n.kind, n.a, n.b];
        let relations = self.relations.iter().flat_map(relation).collect();
        let nodes = self.nodes.iter().flat_map(node).collect();
        [self.scopes.clone(), self.variables.clone(), relations, nodes]
    }

    /// The bytes of the sheet.
    pub fn bytes(&self) -> Vec<u8> {
        assemble(&self.blocks())
    }
}

/// The version, then each block behind its length.
pub fn assemble(blocks: &[Vec<u8>; 4]) -> Vec<u8> {
    let mut bytes = vec![1];
    for block in blocks {
        bytes.extend((block.len() as u16).to_be_bytes());
        bytes.extend(block);
    }
    bytes
}

/// The sheet that the bytes hold, or the first number of 1 to 9 that applies.
pub fn read(bytes: &[u8]) -> Result<Sheet, u32> {
    if bytes.first() != Some(&1) {
        return Err(VERSION);
    }
    let sheet = cut(&bytes[1..]).ok_or(LENGTH)?;
    let tests: [(fn(&Sheet) -> bool, u32); 7] = [
        (counts_fit, COUNT),
        (scopes_fit, SCOPE),
        (declarations_fit, DECLARATION),
        (nodes_fit, NODE),
        (shapes_fit, SHAPE),
        (root_fits, ROOT),
        (walk_fits, WALK),
    ];
    for (fits, number) in tests {
        if !fits(&sheet) {
            return Err(number);
        }
    }
    Ok(sheet)
}

/// The four blocks cut into records; none where they do not fill the bytes or hold no whole count of records.
fn cut(bytes: &[u8]) -> Option<Sheet> {
    let (scopes, rest) = block(bytes)?;
    let (variables, rest) = block(rest)?;
    let (relations, rest) = block(rest)?;
    let (nodes, rest) = block(rest)?;
    if !rest.is_empty() || relations.len() % 4 != 0 || nodes.len() % 3 != 0 {
        return None;
    }
    let relation = |r: &[u8]| Relation { columns: r[0], mark: r[1], first: r[2], second: r[3] };
    let node = |n: &[u8]| Node { kind: n[0], a: n[1], b: n[2] };
    Some(Sheet {
        scopes: scopes.to_vec(),
        variables: variables.to_vec(),
        relations: relations.chunks(4).map(relation).collect(),
        nodes: nodes.chunks(3).map(node).collect(),
    })
}

/// The first block of the bytes and what follows it.
fn block(bytes: &[u8]) -> Option<(&[u8], &[u8])> {
    let length = u16::from_be_bytes([*bytes.first()?, *bytes.get(1)?]) as usize;
    let rest = &bytes[2..];
    (length <= rest.len()).then(|| rest.split_at(length))
}

fn counts_fit(sheet: &Sheet) -> bool {
    (1..=8).contains(&sheet.scopes.len())
        && sheet.variables.len() <= 4
        && (1..=16).contains(&sheet.relations.len())
        && (1..=200).contains(&sheet.nodes.len())
}

fn scopes_fit(sheet: &Sheet) -> bool {
    sheet.scopes.iter().all(|scope| matches!(scope, 1..=8 | 129..=136))
}

fn declarations_fit(sheet: &Sheet) -> bool {
    let sort = |number: u8| (number as usize) < sheet.scopes.len();
    let relation = |r: &Relation| {
        let last = if r.columns == 1 { r.second == 0 } else { sort(r.second) };
        (r.columns == 1 || r.columns == 2) && r.mark <= 2 && sort(r.first) && last
    };
    sheet.variables.iter().all(|&v| sort(v)) && sheet.relations.iter().all(relation)
}

fn nodes_fit(sheet: &Sheet) -> bool {
    let fits = |at: usize, field: Field, value: u8| {
        let value = value as usize;
        match field {
            Field::Unused => value == 0,
            Field::Node => value < at,
            Field::Relation => value < sheet.relations.len(),
            Field::Variable => value < sheet.variables.len(),
            Field::Sort => value < sheet.scopes.len(),
        }
    };
    sheet.nodes.iter().enumerate().all(|(at, node)| match fields(node.kind) {
        Some((a, b)) => fits(at, a, node.a) && fits(at, b, node.b),
        None => false,
    })
}

/// The shape of each node; none where some node takes operands that its kind does not take.
pub fn shapes(sheet: &Sheet) -> Option<Vec<Shape>> {
    let mut shapes = Vec::new();
    for node in &sheet.nodes {
        shapes.push(shape(sheet, &shapes, node)?);
    }
    Some(shapes)
}

fn shape(sheet: &Sheet, shapes: &[Shape], node: &Node) -> Option<Shape> {
    use Shape::*;
    let operand = |field: u8| shapes[field as usize];
    let bound = || Set(sheet.variables[node.a as usize]);
    match node.kind {
        1 => Some(sheet.relations[node.a as usize].shape()),
        2 => Some(bound()),
        3 => Some(Set(node.a)),
        4 => Some(Pairs(node.a, node.a)),
        5..=7 => alike(operand(node.a), operand(node.b)),
        8 => joined(operand(node.a), operand(node.b)),
        9 => match (operand(node.a), operand(node.b)) {
            (Set(first), Set(second)) => Some(Pairs(first, second)),
            _ => None,
        },
        10 => match operand(node.a) {
            Pairs(first, second) => Some(Pairs(second, first)),
            _ => None,
        },
        11 => match operand(node.a) {
            Pairs(first, second) if first == second => Some(Pairs(first, second)),
            _ => None,
        },
        12 => (operand(node.b) == Formula).then(bound),
        20 | 21 => alike(operand(node.a), operand(node.b)).map(|_| Formula),
        22..=24 => (operand(node.a) != Formula).then_some(Formula),
        30 => (operand(node.a) == Formula).then_some(Formula),
        31..=34 => (operand(node.a) == Formula && operand(node.b) == Formula).then_some(Formula),
        40 | 41 => (operand(node.b) == Formula).then_some(Formula),
        _ => None,
    }
}

/// Two expressions of one shape.
fn alike(a: Shape, b: Shape) -> Option<Shape> {
    (a == b && a != Shape::Formula).then_some(a)
}

/// The shape of a join: the touching sorts are equal, and set with set is refused.
fn joined(a: Shape, b: Shape) -> Option<Shape> {
    use Shape::*;
    match (a, b) {
        (Set(s), Pairs(t, u)) if s == t => Some(Set(u)),
        (Pairs(s, t), Set(u)) if t == u => Some(Set(s)),
        (Pairs(s, t), Pairs(u, w)) if t == u => Some(Pairs(s, w)),
        _ => None,
    }
}

fn shapes_fit(sheet: &Sheet) -> bool {
    shapes(sheet).is_some()
}

fn root_fits(sheet: &Sheet) -> bool {
    let formula = shapes(sheet).is_some_and(|shapes| shapes.last() == Some(&Shape::Formula));
    formula && !unbound(sheet)
}

/// Whether some path down from the root comes to a variable that no binder above it binds.
/// A place on a path is a node with the set of the variables bound above it.
fn unbound(sheet: &Sheet) -> bool {
    let mut seen = BTreeSet::new();
    let mut open = vec![(sheet.nodes.len() - 1, BTreeSet::new())];
    while let Some((at, bound)) = open.pop() {
        if !seen.insert((at, bound.clone())) {
            continue;
        }
        let node = &sheet.nodes[at];
        if node.kind == 2 && !bound.contains(&node.a) {
            return true;
        }
        for (below, _) in operands(sheet, node) {
            let mut bound = bound.clone();
            if binds(node.kind) {
                bound.insert(node.a);
            }
            open.push((below, bound));
        }
    }
    false
}

pub fn binds(kind: u8) -> bool {
    matches!(kind, 12 | 40 | 41)
}

/// The operands of a node that are nodes, each with the times that one visit of the node walks it.
fn operands(sheet: &Sheet, node: &Node) -> Vec<(usize, u128)> {
    let Some((a, b)) = fields(node.kind) else { return Vec::new() };
    let times = if binds(node.kind) { sheet.range(node.a) as u128 } else { 1 };
    let mut below = Vec::new();
    if a == Field::Node {
        below.push((node.a as usize, times));
    }
    if b == Field::Node {
        below.push((node.b as usize, times));
    }
    below
}

/// The node visits of the root's walk, counted from the root down: a node is visited
/// once for each visit of a parent and each atom that the parent binds.
pub fn visits(sheet: &Sheet) -> u128 {
    let mut visited = vec![0u128; sheet.nodes.len()];
    *visited.last_mut().expect("a root") = 1;
    let mut sum = 0u128;
    for at in (0..sheet.nodes.len()).rev() {
        sum = sum.saturating_add(visited[at]);
        for (below, times) in operands(sheet, &sheet.nodes[at]) {
            let more = visited[at].saturating_mul(times);
            visited[below] = visited[below].saturating_add(more);
        }
    }
    sum
}

fn walk_fits(sheet: &Sheet) -> bool {
    visits(sheet) <= VISITS
}
