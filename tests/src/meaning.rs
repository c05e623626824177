//! The meaning of the kinds by sets of tuples, the marks, and the check of an instance
//! (document 01, "Kinds and meanings", numbers 1 to 9 and 11; document 02, Change 8).

use crate::sheet::{self, Node, Relation, Sheet, CELLS};
use std::collections::{BTreeSet, VecDeque};

/// One atom, or two.
pub type Tuple = Vec<u8>;
pub type Tuples = BTreeSet<Tuple>;

/// The atom of each variable; a binder puts its own in place.
pub type Environment = [u8; 4];

/// What there is.
pub struct Instance {
    /// The atoms of each sort: its members where it is limited, else all.
    pub atoms: Vec<BTreeSet<u8>>,
    /// The tuples of each relation.
    pub relations: Vec<Tuples>,
}

/// An instance from its bytes, one for each cell: the limited sorts' atoms, sort by sort; then relation by relation,
/// row by row, column by column.
pub fn decode(sheet: &Sheet, bytes: &[u8]) -> Option<Instance> {
    if bytes.len() != sheet.cells() || bytes.iter().any(|&byte| byte > 1) {
        return None;
    }
    let mut bytes = bytes.iter();
    let sorts = 0..sheet.scopes.len() as u8;
    let mut exists = |sort: u8| !sheet.is_limited(sort) || bytes.next() == Some(&1);
    let atoms = sorts.map(|sort| (0..sheet.scope(sort) as u8).filter(|_| exists(sort)).collect()).collect();
    let mut relations = Vec::new();
    for relation in &sheet.relations {
        let (rows, columns) = sheet.extent(relation.shape());
        let mut tuples = Tuples::new();
        for row in 0..rows as u8 {
            for column in 0..columns as u8 {
                if bytes.next() == Some(&1) {
                    tuples.insert(if relation.columns == 1 { vec![column] } else { vec![row, column] });
                }
            }
        }
        relations.push(tuples);
    }
    Some(Instance { atoms, relations })
}

/// The tuples of an expression.
pub fn tuples(sheet: &Sheet, instance: &Instance, environment: Environment, at: u8) -> Tuples {
    let node = sheet.nodes[at as usize];
    let operand = |field: u8| tuples(sheet, instance, environment, field);
    match node.kind {
        1 => instance.relations[node.a as usize].clone(),
        2 => Tuples::from([vec![environment[node.a as usize]]]),
        3 => instance.atoms[node.a as usize].iter().map(|&atom| vec![atom]).collect(),
        4 => instance.atoms[node.a as usize].iter().map(|&atom| vec![atom, atom]).collect(),
        5 => operand(node.a).union(&operand(node.b)).cloned().collect(),
        6 => operand(node.a).intersection(&operand(node.b)).cloned().collect(),
        7 => operand(node.a).difference(&operand(node.b)).cloned().collect(),
        8 => join(&operand(node.a), &operand(node.b)),
        9 => product(&operand(node.a), &operand(node.b)),
        10 => operand(node.a).iter().map(|pair| vec![pair[1], pair[0]]).collect(),
        11 => closure(&operand(node.a)),
        12 => {
            let holds = |atom: &u8| holds(sheet, instance, bind(environment, node.a, *atom), node.b);
            variable_atoms(sheet, instance, &node).filter(holds).map(|atom| vec![atom]).collect()
        }
        kind => unreachable!("kind {kind} is no expression"),
    }
}

/// The truth of a formula.
fn holds(sheet: &Sheet, instance: &Instance, environment: Environment, at: u8) -> bool {
    let node = sheet.nodes[at as usize];
    let set = |field: u8| tuples(sheet, instance, environment, field);
    let truth = |field: u8| holds(sheet, instance, environment, field);
    let body = |atom: u8| holds(sheet, instance, bind(environment, node.a, atom), node.b);
    match node.kind {
        20 => set(node.a) == set(node.b),
        21 => set(node.a).is_subset(&set(node.b)),
        22 => !set(node.a).is_empty(),
        23 => set(node.a).is_empty(),
        24 => set(node.a).len() <= 1,
        30 => !truth(node.a),
        31 => truth(node.a) && truth(node.b),
        32 => truth(node.a) || truth(node.b),
        33 => !truth(node.a) || truth(node.b),
        34 => truth(node.a) == truth(node.b),
        40 => variable_atoms(sheet, instance, &node).all(body),
        41 => variable_atoms(sheet, instance, &node).any(body),
        kind => unreachable!("kind {kind} is no formula"),
    }
}

/// The atoms that a binder's variable takes, ascending.
fn variable_atoms<'i>(sheet: &Sheet, instance: &'i Instance, binder: &Node) -> impl Iterator<Item = u8> + 'i {
    let sort = sheet.variables[binder.a as usize];
    instance.atoms[sort as usize].iter().copied()
}

fn bind(mut environment: Environment, variable: u8, atom: u8) -> Environment {
    environment[variable as usize] = atom;
    environment
}

/// Tuples put together where the last atom of one is the first of the other; the two fall out.
fn join(a: &Tuples, b: &Tuples) -> Tuples {
    let mut joined = Tuples::new();
    for left in a {
        for right in b {
            let (last, front) = left.split_last().expect("an atom");
            let (first, back) = right.split_first().expect("an atom");
            if last == first {
                joined.insert([front, back].concat());
            }
        }
    }
    joined
}

fn product(a: &Tuples, b: &Tuples) -> Tuples {
    a.iter().flat_map(|left| b.iter().map(|right| [&left[..], &right[..]].concat())).collect()
}

/// The pairs joined by a path of one or more steps: from each atom, all that can be reached.
fn closure(pairs: &Tuples) -> Tuples {
    let starts: BTreeSet<u8> = pairs.iter().map(|pair| pair[0]).collect();
    let mut closed = Tuples::new();
    for start in starts {
        let mut open = VecDeque::from([start]);
        while let Some(atom) = open.pop_front() {
            for pair in pairs.iter().filter(|pair| pair[0] == atom) {
                if closed.insert(vec![start, pair[1]]) {
                    open.push_back(pair[1]);
                }
            }
        }
    }
    closed
}

/// Whether every atom of every tuple is there.
fn within_scopes(sheet: &Sheet, instance: &Instance) -> bool {
    let is_there = |(&atom, sort): (&u8, u8)| instance.atoms[sort as usize].contains(&atom);
    let of_relation = |(relation, tuples): (&Relation, &Tuples)| {
        tuples.iter().all(|tuple| tuple.iter().zip(relation.sorts()).all(is_there))
    };
    sheet.relations.iter().zip(&instance.relations).all(of_relation)
}

/// Whether every mark holds: for a relation in the row of each atom of the first sort, for a set in all of it.
fn marks_hold(sheet: &Sheet, instance: &Instance) -> bool {
    let mark_holds = |(relation, tuples): (&Relation, &Tuples)| {
        let fits = |values: usize| match relation.mark {
            0 => true,
            1 => values <= 1,
            _ => values == 1,
        };
        let in_row = |row: u8| tuples.iter().filter(|pair| pair[0] == row).count();
        match relation.columns {
            1 => fits(tuples.len()),
            _ => instance.atoms[relation.first as usize].iter().all(|&row| fits(in_row(row))),
        }
    };
    sheet.relations.iter().zip(&instance.relations).all(mark_holds)
}

/// Whether an instance is within the scopes and satisfies marks and formula.
pub fn satisfies(sheet: &Sheet, instance: &Instance) -> bool {
    let root = sheet.nodes.len() - 1;
    within_scopes(sheet, instance) && marks_hold(sheet, instance) && holds(sheet, instance, [0; 4], root as u8)
}

/// The check of an instance: numbers 1 to 9 and 11, else whether it is within the scopes and satisfies marks and
/// formula.
pub fn check(sheet: &[u8], instance: &[u8]) -> Result<bool, u32> {
    let sheet = sheet::read(sheet)?;
    let instance = decode(&sheet, instance).ok_or(CELLS)?;
    Ok(satisfies(&sheet, &instance))
}
