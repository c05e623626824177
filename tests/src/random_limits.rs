//! Scopes as upper limits (document 02, Change 8) in random sheets, and instances of such sheets.

use crate::random::Source;
use crate::random_sheet::grown;
use crate::sheet::{Relation, Sheet, LIMIT};

/// In a third of the sheets some sorts are limited, among them one that a relation has.
pub fn limit(source: &mut Source, sheet: &mut Sheet) {
    if source.chance(1, 3) {
        limit_some(source, sheet);
    }
}

/// Some sorts are limited.
pub fn limit_some(source: &mut Source, sheet: &mut Sheet) {
    let between_two =
        sheet.relations.iter().find(|relation| relation.columns == 2 && relation.first != relation.second);
    let relation = match between_two.filter(|_| source.chance(1, 2)) {
        Some(relation) => *relation,
        None => source.pick(&sheet.relations),
    };
    let used = source.pick(&relation.sorts()) as usize;
    for sort in 0..sheet.scopes.len() {
        if sort == used || source.chance(2, 5) {
            sheet.scopes[sort] |= LIMIT;
        }
    }
}

/// A small sheet with one or two limited sorts and a relation between them; at times one more, over one of them.
pub fn limited(source: &mut Source) -> Sheet {
    let [first, second] = source.pick(&[[LIMIT, 0], [0, LIMIT], [LIMIT, LIMIT]]);
    let scopes = [first, second].map(|limit| source.between(1, 2) as u8 + limit).to_vec();
    let mut relations = vec![Relation { columns: 2, mark: source.pick(&[0, 1, 2, 2]), first: 0, second: 1 }];
    if source.chance(2, 3) {
        let (columns, sort) = (source.between(1, 2) as u8, source.below(2) as u8);
        let second = if columns == 1 { 0 } else { sort };
        relations.push(Relation { columns, mark: source.pick(&[0, 1, 2]), first: sort, second });
    }
    let depth = source.between(2, 5);
    grown(source, Sheet { scopes, variables: vec![0, 1], relations, nodes: Vec::new() }, depth)
}

/// For each cell of the relations, in order, its membership cells.
fn members_of_cells(sheet: &Sheet) -> Vec<Vec<usize>> {
    let before = |sort: u8| sheet.limited().take_while(|&s| s < sort).map(|s| sheet.scope(s)).sum::<usize>();
    let mut members = Vec::new();
    for relation in &sheet.relations {
        let (rows, columns) = sheet.extent(relation.shape());
        for cell in 0..rows * columns {
            let atoms = if relation.columns == 1 { vec![cell] } else { vec![cell / columns, cell % columns] };
            let places = relation.sorts().into_iter().zip(atoms).filter(|(sort, _)| sheet.is_limited(*sort));
            members.push(places.map(|(sort, atom)| before(sort) + atom).collect());
        }
    }
    members
}

/// The cells of a relation that have an atom that is no member.
pub fn outside(sheet: &Sheet, instance: &[u8]) -> Vec<usize> {
    let members = members_of_cells(sheet);
    let is_outside = |at: &usize| members[*at].iter().any(|&member| instance[member] == 0);
    (0..members.len()).filter(is_outside).map(|at| sheet.memberships() + at).collect()
}

/// An instance without the 1s of atoms that are no members.
pub fn within(sheet: &Sheet, mut instance: Vec<u8>) -> Vec<u8> {
    for cell in outside(sheet, &instance) {
        instance[cell] = 0;
    }
    instance
}

/// An instance with one 1 of an atom that is no member; none where there is no such atom.
pub fn one_outside(source: &mut Source, sheet: &Sheet, instance: Vec<u8>) -> Option<Vec<u8>> {
    let mut instance = within(sheet, instance);
    let cells = outside(sheet, &instance);
    if cells.is_empty() {
        return None;
    }
    instance[source.pick(&cells)] = 1;
    Some(instance)
}
