//! Reading a sheet in Rust as crate `sheet` does it: the nodes once for numbers 6 to 9, where each node's shape, free
//! variables and visits are made from those of the nodes that it names; and both beside each other.

use crate::worked::examples;
use crate::{best, line, sheets, SEED, SIDES};
use reference::random::Source;
use reference::random_damage::any;
use reference::random_sheet::{closures, sheet, LARGE};
use reference::sheet::{Node, Sheet};
use std::hint::black_box;

/// The most nodes of a sheet.
const NODES: usize = 200;

/// The most visits of a root's walk.
const VISITS: u32 = 1_000_000;

#[derive(Clone, Copy, PartialEq, Eq)]
enum Field {
    Unused,
    Node,
    Relation,
    Variable,
    Sort,
}

#[derive(Clone, Copy, PartialEq, Eq)]
enum Rule {
    Unknown,
    OfRelation,
    OfVariable,
    OfSort,
    OfIdentity,
    Same,
    Join,
    Product,
    Inverse,
    Closure,
    Comprehension,
    Comparison,
    Test,
    Negation,
    Connective,
    Quantifier,
}

#[derive(Clone, Copy)]
struct Row {
    a: Field,
    b: Field,
    rule: Rule,
}

const NO_KIND: Row = Row { a: Field::Unused, b: Field::Unused, rule: Rule::Unknown };

/// The row of each kind.
static KINDS: [Row; 42] = {
    use Field::{Relation, Sort, Unused, Variable};
    use Rule::*;
    let mut rows = [NO_KIND; 42];
    rows[1] = Row { a: Relation, b: Unused, rule: OfRelation };
    rows[2] = Row { a: Variable, b: Unused, rule: OfVariable };
    rows[3] = Row { a: Sort, b: Unused, rule: OfSort };
    rows[4] = Row { a: Sort, b: Unused, rule: OfIdentity };
    let (one, two) = ((Field::Node, Unused), (Field::Node, Field::Node));
    let binds = (Variable, Field::Node);
    let kinds = [
        (5, 7, two, Same),
        (8, 8, two, Join),
        (9, 9, two, Product),
        (10, 10, one, Inverse),
        (11, 11, one, Closure),
        (12, 12, binds, Comprehension),
        (20, 21, two, Comparison),
        (22, 24, one, Test),
        (30, 30, one, Negation),
        (31, 34, two, Connective),
        (40, 41, binds, Quantifier),
    ];
    let mut i = 0;
    while i < kinds.len() {
        let (first, last, (a, b), rule) = kinds[i];
        let mut kind = first;
        while kind <= last {
            rows[kind] = Row { a, b, rule };
            kind += 1;
        }
        i += 1;
    }
    rows
};

fn row_of(kind: u8) -> Row {
    *KINDS.get(kind as usize).unwrap_or(&NO_KIND)
}

#[derive(Clone, Copy, PartialEq, Eq)]
enum Shape {
    Ill,
    Formula,
    Set(u8),
    Pairs(u8, u8),
}

/// What is known of a node: its shape, a bit for each variable that is free in it, the visits of its walk.
#[derive(Clone, Copy)]
struct Entry {
    shape: Shape,
    free: u8,
    visits: u32,
}

struct Blocks<'s> {
    sorts: &'s [u8],
    variables: &'s [u8],
    relations: &'s [u8],
    nodes: &'s [u8],
}

/// The block at the start of the bytes, and what follows it.
fn block(bytes: &[u8]) -> Option<(&[u8], &[u8])> {
    let length = u16::from_be_bytes([*bytes.first()?, *bytes.get(1)?]) as usize;
    bytes[2..].split_at_checked(length)
}

fn cut(bytes: &[u8]) -> Option<Blocks<'_>> {
    let (sorts, rest) = block(bytes)?;
    let (variables, rest) = block(rest)?;
    let (relations, rest) = block(rest)?;
    let (nodes, rest) = block(rest)?;
    let whole = rest.is_empty() && relations.len() % 4 == 0 && nodes.len() % 3 == 0;
    whole.then_some(Blocks { sorts, variables, relations, nodes })
}

/// The number that refuses the sheet, if there is one.
#[inline(never)]
fn read(bytes: &[u8]) -> Result<(), u32> {
    if bytes.first() != Some(&1) {
        return Err(1);
    }
    let blocks = cut(&bytes[1..]).ok_or(2u32)?;
    if !counted(&blocks) {
        return Err(3);
    }
    if !scoped(&blocks) {
        return Err(4);
    }
    if !declared(&blocks) {
        return Err(5);
    }
    judge(&blocks)
}

fn counted(blocks: &Blocks) -> bool {
    (1..=8).contains(&blocks.sorts.len())
        && blocks.variables.len() <= 4
        && (1..=16).contains(&(blocks.relations.len() / 4))
        && (1..=NODES).contains(&(blocks.nodes.len() / 3))
}

fn scoped(blocks: &Blocks) -> bool {
    blocks.sorts.iter().all(|&byte| (1..=8).contains(&scope(byte)))
}

fn scope(byte: u8) -> u8 {
    if byte >= 129 {
        byte - 128
    } else {
        byte
    }
}

fn declared(blocks: &Blocks) -> bool {
    let sort = |byte: u8| (byte as usize) < blocks.sorts.len();
    let relation = |r: &[u8]| {
        let last = if r[0] == 1 { r[3] == 0 } else { sort(r[3]) };
        (1..=2).contains(&r[0]) && r[1] <= 2 && sort(r[2]) && last
    };
    blocks.variables.iter().all(|&byte| sort(byte)) && blocks.relations.chunks_exact(4).all(relation)
}

fn node_fine(blocks: &Blocks, v: usize, node: &[u8]) -> bool {
    let fine = |field: Field, x: usize| match field {
        Field::Unused => x == 0,
        Field::Node => x < v,
        Field::Relation => x < blocks.relations.len() / 4,
        Field::Variable => x < blocks.variables.len(),
        Field::Sort => x < blocks.sorts.len(),
    };
    let row = row_of(node[0]);
    row.rule != Rule::Unknown && fine(row.a, node[1] as usize) && fine(row.b, node[2] as usize)
}

/// Numbers 6 to 9. A sheet that 6 refuses needs no entries.
fn judge(blocks: &Blocks) -> Result<(), u32> {
    let mut table = [Entry { shape: Shape::Ill, free: 0, visits: 0 }; NODES];
    let mut shaped = true;
    for (v, node) in blocks.nodes.chunks_exact(3).enumerate() {
        if !node_fine(blocks, v, node) {
            return Err(6);
        }
        let entry = entry(blocks, node, &table);
        shaped &= entry.shape != Shape::Ill;
        table[v] = entry;
    }
    let root = table[blocks.nodes.len() / 3 - 1];
    if !shaped {
        return Err(7);
    }
    if root.shape != Shape::Formula || root.free != 0 {
        return Err(8);
    }
    if root.visits > VISITS {
        return Err(9);
    }
    Ok(())
}

fn entry(blocks: &Blocks, node: &[u8], table: &[Entry; NODES]) -> Entry {
    let row = row_of(node[0]);
    let a = node[1];
    let (mut free, mut visits) = (0, 1);
    let (mut x, mut y) = (Shape::Ill, Shape::Ill);
    if row.a == Field::Node {
        let below = table[a as usize];
        x = below.shape;
        free = below.free;
        visits += below.visits;
    }
    if row.b == Field::Node {
        let below = table[node[2] as usize];
        y = below.shape;
        if row.a == Field::Variable {
            free |= below.free & !(1 << a);
            visits += scope(blocks.sorts[blocks.variables[a as usize] as usize]) as u32 * below.visits;
        } else {
            free |= below.free;
            visits += below.visits;
        }
    } else if row.a == Field::Variable {
        free |= 1 << a;
    }
    Entry { shape: shape(blocks, row.rule, a, x, y), free, visits: visits.min(VISITS + 1) }
}

fn shape(blocks: &Blocks, rule: Rule, a: u8, x: Shape, y: Shape) -> Shape {
    let only = |test: bool, shape: Shape| if test { shape } else { Shape::Ill };
    let expression = |shape: Shape| matches!(shape, Shape::Set(_) | Shape::Pairs(..));
    let variable = || Shape::Set(blocks.variables[a as usize]);
    match rule {
        Rule::Unknown => Shape::Ill,
        Rule::OfRelation => {
            let r = &blocks.relations[4 * a as usize..][..4];
            if r[0] == 1 {
                Shape::Set(r[2])
            } else {
                Shape::Pairs(r[2], r[3])
            }
        }
        Rule::OfVariable => variable(),
        Rule::OfSort => Shape::Set(a),
        Rule::OfIdentity => Shape::Pairs(a, a),
        Rule::Same => only(x == y && expression(x), x),
        Rule::Join => joined(x, y),
        Rule::Product => match (x, y) {
            (Shape::Set(s), Shape::Set(t)) => Shape::Pairs(s, t),
            _ => Shape::Ill,
        },
        Rule::Inverse => match x {
            Shape::Pairs(s, t) => Shape::Pairs(t, s),
            _ => Shape::Ill,
        },
        Rule::Closure => match x {
            Shape::Pairs(s, t) => only(s == t, x),
            _ => Shape::Ill,
        },
        Rule::Comprehension => only(y == Shape::Formula, variable()),
        Rule::Comparison => only(x == y && expression(x), Shape::Formula),
        Rule::Test => only(expression(x), Shape::Formula),
        Rule::Negation => only(x == Shape::Formula, Shape::Formula),
        Rule::Connective => only(x == Shape::Formula && y == Shape::Formula, Shape::Formula),
        Rule::Quantifier => only(y == Shape::Formula, Shape::Formula),
    }
}

fn joined(x: Shape, y: Shape) -> Shape {
    match (x, y) {
        (Shape::Set(s), Shape::Pairs(t, u)) if s == t => Shape::Set(u),
        (Shape::Pairs(s, t), Shape::Set(u)) if t == u => Shape::Set(s),
        (Shape::Pairs(s, t), Shape::Pairs(u, w)) if t == u => Shape::Pairs(s, w),
        _ => Shape::Ill,
    }
}

/// Random sheets filled up to 200 nodes by negations of the root.
fn full(number: usize) -> Vec<Sheet> {
    let drawn = (0..).map(|case| sheet(&mut Source::new(SEED, "bench, reading", case), LARGE));
    let filled = drawn.filter(|sheet| sheet.nodes.len() > 60).map(|mut sheet| {
        while sheet.nodes.len() < NODES {
            sheet.nodes.push(Node { kind: 30, a: (sheet.nodes.len() - 1) as u8, b: 0 });
        }
        sheet
    });
    filled.filter(|sheet| read(&sheet.bytes()).is_ok()).take(number).collect()
}

/// A line for each group of sheets. Both sides are held to the same answers first, on refused sheets too.
pub fn each() {
    let compare = |bytes: &[u8]| assert_eq!(library::read(bytes), read(bytes), "{bytes:?}");
    (0..20_000).for_each(|case| compare(&any(&mut Source::new(SEED, "bench, reading any", case))));
    let bytes = |sheets: Vec<Sheet>| sheets.iter().map(Sheet::bytes).collect::<Vec<_>>();
    let groups = [
        ("the examples", bytes(examples().into_iter().map(|(_, sheet)| sheet).collect())),
        ("300 random sheets", sheets(300).into_iter().map(|(bytes, _)| bytes).collect()),
        ("random sheets of 200 nodes", bytes(full(30))),
        ("a tower of 194 closures", bytes(vec![closures(194)])),
    ];
    for (name, sheets) in groups {
        sheets.iter().for_each(|bytes| compare(bytes));
        let nodes: usize =
            sheets.iter().map(|bytes| reference::sheet::read(bytes).expect("accepted").nodes.len()).sum();
        let times = 1 + 40_000 / nodes;
        let each = |read: fn(&[u8]) -> Result<(), u32>| {
            for bytes in (0..times).flat_map(|_| &sheets) {
                let _ = black_box(read(black_box(bytes)));
            }
        };
        let least = best(|| each(library::read), || each(read));
        line(&format!("reading, {name}"), (times * nodes) as u64, "nodes", SIDES, least);
    }
}
