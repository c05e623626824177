//! Sheets that go through the table of kinds whole: each kind, and each number that is none, over each pair of
//! operands of seven shapes; and sheets that hold the exact value of an expression.

use crate::meaning::{decode, tuples};
use crate::random::Source;
use crate::random_limits::within;
use crate::sheet::{read, shapes, Node, Relation, Shape, Sheet, LIMIT};

/// The shapes of two sorts: relations 0 to 5, and relations 6 to 11 once more.
const SHAPES: [Shape; 6] =
    [Shape::Set(0), Shape::Set(1), Shape::Pairs(0, 0), Shape::Pairs(0, 1), Shape::Pairs(1, 0), Shape::Pairs(1, 1)];

/// The node under trial in `trials`: the one after a relation of each shape and a formula.
const TRIAL: usize = 7;

/// Each kind over each pair of operands. The node under trial is the last, or stands under a "some".
pub fn trials(scopes: [u8; 2]) -> Vec<Sheet> {
    let mut sheets = Vec::new();
    for kind in (0..=43).chain([128, 254, 255]) {
        for a in 0..=8 {
            for b in 0..=8 {
                let mut sheet = operands(scopes);
                sheet.nodes.push(Node { kind, a, b });
                sheets.push(sheet.clone());
                sheet.nodes.push(Node { kind: 22, a: TRIAL as u8, b: 0 });
                sheets.push(sheet);
            }
        }
    }
    sheets
}

/// The scopes 1 to 8 of either sort.
pub fn scopes() -> impl Iterator<Item = [u8; 2]> {
    (1..=8).map(|scope| [scope, 9 - scope])
}

/// The same with the one, the other or both as upper limits.
pub fn limits() -> impl Iterator<Item = [u8; 2]> {
    scopes().map(|[first, second]| match first % 3 {
        0 => [first, second + LIMIT],
        1 => [first + LIMIT, second],
        _ => [first + LIMIT, second + LIMIT],
    })
}

/// The trials that are accepted, at all scopes of either sort, as they are and as upper limits.
pub fn accepted() -> Vec<Sheet> {
    scopes().chain(limits()).flat_map(trials).filter(|sheet| read(&sheet.bytes()).is_ok()).collect()
}

/// Nodes 0 to 6: two sets, the four relations between two sorts, a formula. The variables are bound nowhere.
fn operands(scopes: [u8; 2]) -> Sheet {
    let relation = |shape: &Shape| match *shape {
        Shape::Set(first) => Relation { columns: 1, mark: 0, first, second: 0 },
        Shape::Pairs(first, second) => Relation { columns: 2, mark: 0, first, second },
        Shape::Formula => unreachable!("no relation"),
    };
    let relations = SHAPES.iter().chain(&SHAPES).map(relation).collect();
    let mut nodes: Vec<Node> = (0..6).map(|relation| Node { kind: 1, a: relation, b: 0 }).collect();
    nodes.push(Node { kind: 22, a: 0, b: 0 });
    Sheet { scopes: scopes.to_vec(), variables: vec![0, 1], relations, nodes }
}

/// Each expression of `trials` said to be equal to a relation of its shape that is no operand of it.
pub fn equations(scopes: [u8; 2]) -> Vec<Sheet> {
    let mut sheets = Vec::new();
    for mut sheet in trials(scopes) {
        let shape = shapes_of(&sheet);
        let Some(target) = SHAPES.iter().position(|known| Some(*known) == shape) else { continue };
        sheet.nodes.push(Node { kind: 1, a: 6 + target as u8, b: 0 });
        sheet.nodes.push(Node { kind: 20, a: TRIAL as u8, b: TRIAL as u8 + 1 });
        if read(&sheet.bytes()).is_ok() {
            sheets.push(sheet);
        }
    }
    sheets
}

/// The shape of the node under trial where it is the last and fits.
fn shapes_of(sheet: &Sheet) -> Option<Shape> {
    let mut under = sheet.clone();
    under.nodes.push(Node { kind: 22, a: TRIAL as u8, b: 0 });
    if sheet.nodes.len() != TRIAL + 1 || read(&under.bytes()).is_err() {
        return None;
    }
    shapes(sheet).map(|shapes| shapes[TRIAL])
}

/// An instance of an equation: operands drawn from the source, and the relation that is their exact value.
pub fn solution(source: &mut Source, sheet: &Sheet) -> Vec<u8> {
    let mut instance = drawn(source, sheet);
    let values = tuples(sheet, &decode(sheet, &instance).expect("an instance"), [0; 4], TRIAL as u8);
    let target = sheet.nodes[TRIAL + 1].a as usize;
    let before = sheet.cells_before(target);
    let columns = sheet.extent(sheet.relations[target].shape()).1;
    let cells = sheet.cells_of(&sheet.relations[target]);
    instance[before..before + cells].fill(0);
    for tuple in values {
        let at = tuple.iter().fold(0, |row, &atom| row * columns + atom as usize);
        instance[before + at] = 1;
    }
    instance
}

/// Rings, in which an atom comes back to itself after as many steps as there are atoms; or cells that are
/// seldom, at times or often 1. Most atoms of a limited sort are members, and no other has a 1.
pub fn drawn(source: &mut Source, sheet: &Sheet) -> Vec<u8> {
    let of = source.pick(&[0, 2, 4, 8]);
    let mut instance: Vec<u8> = (0..sheet.memberships()).map(|_| u8::from(source.chance(3, 4))).collect();
    for relation in &sheet.relations {
        let (rows, columns) = sheet.extent(relation.shape());
        let turn = source.below(columns);
        for row in 0..rows {
            for column in 0..columns {
                let ring = (row + turn) % columns == column;
                let one = if of == 0 { ring } else { source.chance(1, of) };
                instance.push(u8::from(one));
            }
        }
    }
    within(sheet, instance)
}
