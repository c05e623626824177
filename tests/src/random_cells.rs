//! Random sheets whose formula is a row of clauses over single cells. In many of them another order of the cells has another
//! least instance, which is seldom so for formulas that treat all atoms alike.

use crate::random::Source;
use crate::random_limits::limit;
use crate::sheet::{Node, Relation, Sheet};

/// One sort of two atoms, at times of up to two. A sheet has no names for them: a set with exactly one of them tells it
/// from the other.
pub fn cells(source: &mut Source) -> Sheet {
    let named = source.below(3) as u8;
    let mut relations = Vec::new();
    for number in 0..3 {
        let columns = if number == (named + 1) % 3 { 2 } else { source.between(1, 2) as u8 };
        let mark = source.pick(&[0, 0, 0, 1]);
        relations.push(Relation { columns, mark, first: 0, second: 0 });
    }
    relations[named as usize] = Relation { columns: 1, mark: 2, first: 0, second: 0 };
    let mut sheet = Sheet { scopes: vec![2], variables: vec![], relations, nodes: Vec::new() };
    limit(source, &mut sheet);
    let (literals, [one, mirrored]) = literals(&mut sheet, named);
    let mut root = push(&mut sheet, 32, one, mirrored);
    for _ in 0..source.between(literals.len() / 2, 3 * literals.len() / 2) {
        let next = clause(source, &mut sheet, &literals);
        root = push(&mut sheet, 31, root, next);
    }
    sheet
}

fn push(sheet: &mut Sheet, kind: u8, a: u8, b: u8) -> u8 {
    sheet.nodes.push(Node { kind, a, b });
    sheet.nodes.len() as u8 - 1
}

/// A formula for each cell of the other relations, that it is 1; and those of two that change places by columns.
fn literals(sheet: &mut Sheet, named: u8) -> (Vec<u8>, [u8; 2]) {
    let one = push(sheet, 1, named, 0);
    let both = push(sheet, 3, 0, 0);
    let atoms = [push(sheet, 7, both, one), one];
    let (mut literals, mut mirrored) = (Vec::new(), [0; 2]);
    for number in (0..3).filter(|&number| number != named) {
        let relation = push(sheet, 1, number, 0);
        if sheet.relations[number as usize].columns == 1 {
            literals.extend(atoms.map(|atom| push(sheet, 21, atom, relation)));
            continue;
        }
        let mut cell = |row, column| {
            let pair = push(sheet, 9, atoms[row], atoms[column]);
            push(sheet, 21, pair, relation)
        };
        let four = [cell(0, 0), cell(0, 1), cell(1, 0), cell(1, 1)];
        mirrored = [four[1], four[2]];
        literals.extend(four);
    }
    (literals, mirrored)
}

/// An "or" of one to three literals, three in four of them positive.
fn clause(source: &mut Source, sheet: &mut Sheet, literals: &[u8]) -> u8 {
    let literal = |sheet: &mut Sheet, source: &mut Source| {
        let node = source.pick(literals);
        if source.chance(3, 4) {
            node
        } else {
            push(sheet, 30, node, 0)
        }
    };
    let mut root = literal(sheet, source);
    for _ in 0..source.pick(&[0, 1, 1, 1, 2, 2]) {
        let next = literal(sheet, source);
        root = push(sheet, 32, root, next);
    }
    root
}

/// The cells of an instance in another order: column by column in each relation, behind the membership cells.
pub fn by_columns(sheet: &Sheet, instance: &[u8]) -> Vec<u8> {
    let (members, mut rest) = instance.split_at(sheet.memberships());
    let mut all = members.to_vec();
    for relation in &sheet.relations {
        let (rows, columns) = sheet.extent(relation.shape());
        let (cells, after) = rest.split_at(rows * columns);
        all.extend((0..columns).flat_map(|column| cells.iter().skip(column).step_by(columns)));
        rest = after;
    }
    all
}
