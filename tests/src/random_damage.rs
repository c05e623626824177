//! Damage to sheets: in the records, so that each number has its share, and in the bytes.

use crate::random::Source;
use crate::random_sheet::{long_walk, loose, sheet, style, walk_of, KINDS};
use crate::sheet::{assemble, fields, Field, Node, Sheet, LIMIT};

/// The bytes of any sheet: well-formed, loose or damaged.
pub fn any(source: &mut Source) -> Vec<u8> {
    let style = style(source);
    match source.below(21) {
        0..=5 => sheet(source, style).bytes(),
        6..=7 => loose(source).bytes(),
        8 => around_the_limit(source).bytes(),
        9..=15 => {
            let mut sheet = sheet(source, style);
            for _ in 0..source.pick(&[1, 1, 1, 2, 3]) {
                damage_records(source, &mut sheet);
            }
            sheet.bytes()
        }
        16 => {
            let sheet = sheet(source, style);
            uneven_blocks(source, sheet)
        }
        17..=19 => {
            let mut bytes = sheet(source, style).bytes();
            for _ in 0..source.pick(&[1, 1, 2, 3]) {
                damage_bytes(source, &mut bytes);
            }
            bytes
        }
        _ => (0..source.below(40)).map(|_| source.pick(&[0, 0, 0, 1, 1, 2, 3, 4, 6, 22, 255])).collect(),
    }
}

/// A block longer or shorter by a few bytes, its length kept in step: whole records or not, in blocks that fill the sheet.
fn uneven_blocks(source: &mut Source, sheet: Sheet) -> Vec<u8> {
    let mut blocks = sheet.blocks();
    let block = &mut blocks[source.below(4)];
    for _ in 0..source.between(1, 4) {
        if source.chance(1, 2) {
            block.push(source.pick(&[0, 0, 1, 2]));
        } else {
            block.pop();
        }
    }
    assemble(&blocks)
}

/// A walk at the limit of number 9, beside it or far beyond.
fn around_the_limit(source: &mut Source) -> Sheet {
    match source.below(8) {
        0 => walk_of(1_000_000),
        1 => walk_of(1_000_001),
        2 => walk_of(source.between(999_000, 1_001_000) as u128),
        3 => walk_of(2 + (u128::from(source.next()) << source.below(30))),
        // figures that a 32-bit or a 64-bit sum would take for small ones
        4 => walk_of((1 << 32) + 2 + source.below(1_000_000) as u128),
        5 => walk_of((1 << 64) + 2 + source.below(1_000_000) as u128),
        6 => long_walk(8, source.between(1, 190)),
        _ => long_walk(source.between(1, 8) as u8 + source.pick(&[0, LIMIT]), source.between(1, 190)),
    }
}

/// One change to the records of a sheet.
pub fn damage_records(source: &mut Source, sheet: &mut Sheet) {
    if sheet.relations.is_empty() || sheet.nodes.is_empty() {
        return;
    }
    match source.below(10) {
        0 => damage_counts(source, sheet),
        1 => {
            let sort = source.below(sheet.scopes.len().max(1));
            if let Some(scope) = sheet.scopes.get_mut(sort) {
                *scope = source.pick(&[0, 9, 127, 128, 137, 255, 8, 1, 129, 136]);
            }
        }
        2..=3 => damage_declaration(source, sheet),
        4..=6 => damage_node(source, sheet),
        7 => {
            // another root: an earlier node, which may be an expression
            let nodes = source.between(1, sheet.nodes.len());
            sheet.nodes.truncate(nodes);
        }
        8 => {
            // another variable: an occurrence may lose its binder
            let variables = sheet.variables.len().max(1);
            let binders = sheet.nodes.iter_mut().filter(|node| matches!(node.kind, 2 | 12 | 40 | 41));
            let mut nodes: Vec<&mut Node> = binders.collect();
            if !nodes.is_empty() {
                let at = source.below(nodes.len());
                nodes[at].a = source.below(variables) as u8;
            }
        }
        _ => {
            // the root doubled over and over
            for _ in 0..source.below(30) {
                let last = (sheet.nodes.len() - 1) as u8;
                if sheet.nodes.len() < 200 {
                    sheet.nodes.push(Node { kind: 31, a: last, b: last });
                }
            }
        }
    }
}

/// A block emptied, or filled to its limit or beyond it with copies of a record.
fn damage_counts(source: &mut Source, sheet: &mut Sheet) {
    let over = source.pick(&[0, 1, 1]);
    match source.below(7) {
        0 => sheet.scopes.resize(8 + over, 1),
        1 => sheet.variables.resize(4 + over, 0),
        2 => {
            let relation = sheet.relations[0];
            sheet.relations.resize(16 + over, relation);
        }
        3 => {
            let root = *sheet.nodes.last().expect("a root");
            sheet.nodes.resize(200 + over, root);
        }
        4 => sheet.scopes.clear(),
        5 => sheet.relations.clear(),
        _ => sheet.nodes.clear(),
    }
}

fn damage_declaration(source: &mut Source, sheet: &mut Sheet) {
    let sorts = sheet.scopes.len() as u8;
    let sort = source.pick(&[0, sorts.saturating_sub(1), sorts, sorts + 1, 255]);
    if !sheet.variables.is_empty() && source.chance(1, 4) {
        let variable = source.below(sheet.variables.len());
        sheet.variables[variable] = sort;
        return;
    }
    let relation = source.below(sheet.relations.len());
    let relation = &mut sheet.relations[relation];
    match source.below(4) {
        0 => relation.columns = source.pick(&[0, 1, 2, 3, 255]),
        1 => relation.mark = source.pick(&[0, 1, 2, 3, 255]),
        2 => relation.first = sort,
        _ => relation.second = sort,
    }
}

fn damage_node(source: &mut Source, sheet: &mut Sheet) {
    let at = source.below(sheet.nodes.len());
    let sizes = [sheet.relations.len(), sheet.variables.len(), sheet.scopes.len(), at, sheet.nodes.len()];
    let edge = source.pick(&sizes) as u8;
    let value = source.pick(&[0, edge, edge.saturating_sub(1), edge.saturating_add(1), 255]);
    let lower = source.below(at.max(1)) as u8;
    let node = &mut sheet.nodes[at];
    match source.below(9) {
        0 => node.kind = source.pick(&[0, 13, 14, 19, 25, 29, 35, 39, 42, 255]),
        1 => node.kind = source.pick(&KINDS),
        2 => node.a = value,
        3 => node.b = value,
        4..=6 => {
            // another kind with the same fields: the shapes may not fit
            let alike = |kind: &u8| fields(*kind) == fields(node.kind);
            let kinds: Vec<u8> = KINDS.into_iter().filter(alike).collect();
            node.kind = if kinds.is_empty() { node.kind } else { source.pick(&kinds) };
        }
        _ => match fields(node.kind) {
            Some((Field::Node, Field::Node)) if source.chance(1, 2) => node.b = lower,
            Some((Field::Node, _)) => node.a = lower,
            Some((_, Field::Node)) => node.b = lower,
            _ => node.b = value,
        },
    }
}

/// One change to the bytes of a sheet.
pub fn damage_bytes(source: &mut Source, bytes: &mut Vec<u8>) {
    if bytes.is_empty() {
        return;
    }
    let at = if source.chance(1, 3) { source.below(bytes.len().min(12)) } else { source.below(bytes.len()) };
    let other = source.below(bytes.len());
    match source.below(8) {
        0 => bytes[at] ^= 1 << source.below(8),
        1 => bytes[at] = source.byte(),
        2 => bytes.truncate(at),
        3 => bytes.push(source.pick(&[0, 1, 255])),
        4 => bytes.swap(at, other),
        5 => bytes.insert(at, source.pick(&[0, 1, 2, 255])),
        6 => drop(bytes.remove(at)),
        _ => bytes[at] = bytes[at].wrapping_add(source.pick(&[1, 255, 3, 253, 4, 252])),
    }
}
