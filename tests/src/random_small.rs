//! Random sheets of few cells, for all their instances: with none, with one, with several.

use crate::long_search::{early, long};
use crate::random::Source;
use crate::random_cells::cells;
use crate::random_limits::{limit, limited};
use crate::random_sheet::{sheet, Style, SMALL, USUAL};
use crate::sheet::{Node, Relation, Sheet};

/// Some have more cells than one would go through.
pub fn small(source: &mut Source) -> Sheet {
    match source.below(12) {
        10..=11 => limited(source),
        0..=2 => sheet(source, SMALL),
        3 => sheet(source, Style { rich: true, ..SMALL }),
        4 => sheet(source, Style { scope: 3, relations: 2, ..USUAL }),
        5..=6 => cells(source),
        number => {
            let mut sheet = sets(source, number);
            limit(source, &mut sheet);
            sheet
        }
    }
}

/// Sheets that have sets alone.
fn sets(source: &mut Source, number: usize) -> Sheet {
    let scope = source.between(1, 3) as u8;
    match number {
        7 => long(&[(scope, source.below(3) as u8)], source.below(3) as u8, source.chance(1, 2)),
        8 => early(&[(scope, 0), (source.between(1, 3) as u8, 0)], source.below(2) as u8),
        _ => pinned(source),
    }
}

/// Sets that are each empty or full by the formula: one instance; where one set is left out, as many as it has contents.
fn pinned(source: &mut Source) -> Sheet {
    let scopes: Vec<u8> = (0..source.between(1, 4)).map(|_| source.between(1, 3) as u8).collect();
    let set = |first: usize| Relation { columns: 1, mark: 0, first: first as u8, second: 0 };
    let relations: Vec<Relation> = (0..scopes.len()).map(set).collect();
    let mut sheet = Sheet { scopes, variables: vec![], relations, nodes: Vec::new() };
    let left_out = if source.chance(1, 4) { sheet.relations.len() - 1 } else { usize::MAX };
    let mut root = None;
    for number in (0..sheet.relations.len()).filter(|&number| number == 0 || number != left_out) {
        let mut push = |kind, a, b| {
            sheet.nodes.push(Node { kind, a, b });
            sheet.nodes.len() as u8 - 1
        };
        let (relation, atoms) = (push(1, number as u8, 0), push(3, number as u8, 0));
        let fact = if source.chance(1, 2) { push(23, relation, 0) } else { push(20, relation, atoms) };
        root = Some(root.map_or(fact, |root| push(31, root, fact)));
    }
    sheet
}
