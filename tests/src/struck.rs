//! OR as Change 2 of document 02 has it: small sheets, each with its clauses worked out by hand.

use crate::sheet::{Node, Relation, Sheet};

/// A sheet, the number of its variables, and its clauses.
pub struct Case {
    pub name: &'static str,
    pub sheet: Sheet,
    pub variables: u32,
    pub clauses: &'static [&'static [i32]],
}

/// Nodes as kind, a, b.
type Nodes = &'static [(u8, u8, u8)];

/// Sort 0 has two or three atoms, sort 1 has one; r is a set of sort 0, t a set of sort 1, x a variable of sort 0.
/// So with two atoms r is 2, 3 and t is 4; with three r is 2, 3, 4 and t is 5. Gates come next.
fn case(name: &'static str, atoms: u8, nodes: Nodes, variables: u32, clauses: &'static [&'static [i32]]) -> Case {
    let set = |first| Relation { columns: 1, mark: 0, first, second: 0 };
    let nodes = nodes.iter().map(|&(kind, a, b)| Node { kind, a, b }).collect();
    let sheet = Sheet { scopes: vec![atoms, 1], variables: vec![0], relations: vec![set(0), set(1)], nodes };
    Case { name, sheet, variables, clauses }
}

const R: (u8, u8, u8) = (1, 0, 0);
const T: (u8, u8, u8) = (1, 1, 0);
const X: (u8, u8, u8) = (2, 0, 0);
const ATOMS: (u8, u8, u8) = (3, 0, 0);
const IDENTITY: (u8, u8, u8) = (4, 0, 0);

/// The clauses of a sheet that is true, or false, by its constants alone.
const TRUE: &[&[i32]] = &[&[1], &[1]];
const FALSE: &[&[i32]] = &[&[1], &[-1]];

pub fn cases() -> Vec<Case> {
    [strikings(), certainties(), lists_of_two(), long_lists()].into_iter().flatten().collect()
}

/// -1 and repeats go out; several, one and no literal remain.
fn strikings() -> Vec<Case> {
    vec![
        // the middles of r joined with the identity are 2, -1 and -1, 3
        case("some r.identity", 2, &[R, IDENTITY, (8, 0, 1), (22, 2, 0)], 5, SOME_R),
        // -1, 3, 4; then 2, -1, 4; then 2, 3, -1
        case("for some x: some r less x", 3, &[R, X, (7, 0, 1), (22, 2, 0), (41, 0, 3)], 9, LESS_ONE),
        // 2, 5, 5; then 5, 3, 5; then 5, 5, 4
        case("for some x: t's literal for each atom but x, and r's for x", 3, REPEATS, 9, FIRST_KEPT),
        case("some (x for which some t)", 2, &[T, (22, 0, 0), (12, 0, 1), (22, 2, 0)], 4, &[&[1], &[4]]),
        case("some of no atom", 2, &[ATOMS, (7, 0, 0), (22, 1, 0)], 4, FALSE),
    ]
}

const SOME_R: &[&[i32]] = &[&[1], &[5, -2], &[5, -3], &[-5, 2, 3], &[5]];

#[rustfmt::skip]
const LESS_ONE: &[&[i32]] = &[
    &[1],
    &[6, -3], &[6, -4], &[-6, 3, 4], &[7, -2], &[7, -4], &[-7, 2, 4], &[8, -2], &[8, -3], &[-8, 2, 3],
    &[9, -6], &[9, -7], &[9, -8], &[-9, 6, 7, 8], &[9],
];

const REPEATS: Nodes = &[T, (22, 0, 0), (12, 0, 1), X, (7, 2, 3), R, (6, 5, 3), (5, 4, 6), (22, 7, 0), (41, 0, 8)];

#[rustfmt::skip]
const FIRST_KEPT: &[&[i32]] = &[
    &[1],
    &[6, -2], &[6, -5], &[-6, 2, 5], &[7, -5], &[7, -3], &[-7, 5, 3], &[8, -5], &[8, -4], &[-8, 5, 4],
    &[9, -6], &[9, -7], &[9, -8], &[-9, 6, 7, 8], &[9],
];

/// 1, or a literal and its opposite. The gate of "some r" stays where what it stands in comes to a constant.
fn certainties() -> Vec<Case> {
    const STAYS: &[&[i32]] = &[&[1], &[5, -2], &[5, -3], &[-5, 2, 3], &[1]];
    const STAYS_FALSE: &[&[i32]] = &[&[1], &[5, -2], &[5, -3], &[-5, 2, 3], &[-1]];
    vec![
        case("some r, or some atom", 2, &[R, (22, 0, 0), ATOMS, (22, 2, 0), (32, 1, 3)], 5, STAYS),
        case("some r, and no atom", 2, &[R, (22, 0, 0), ATOMS, (23, 2, 0), (31, 1, 3)], 5, STAYS_FALSE),
        case("some r implies some atom", 2, &[R, (22, 0, 0), ATOMS, (22, 2, 0), (33, 1, 3)], 5, STAYS),
        case("some r with all atoms", 2, &[R, ATOMS, (5, 0, 1), (22, 2, 0)], 4, TRUE),
        case("some t, or not", 2, &[T, (22, 0, 0), (30, 1, 0), (32, 1, 2)], 4, TRUE),
        case("some t implies some t", 2, &[T, (22, 0, 0), (33, 1, 1)], 4, TRUE),
        case("some t, and not", 2, &[T, (22, 0, 0), (30, 1, 0), (31, 1, 2)], 4, FALSE),
        case("some r less r", 2, &[R, (7, 0, 0), (22, 1, 0)], 4, FALSE),
    ]
}

/// IFF and AND over constants, equal literals and opposites.
fn lists_of_two() -> Vec<Case> {
    const ALL_OF_R: &[&[i32]] = &[&[1], &[5, 2], &[5, 3], &[-5, -2, -3], &[-5]];
    const NONE_OF_R: &[&[i32]] = &[&[1], &[5, -2], &[5, -3], &[-5, 2, 3], &[-5]];
    vec![
        case("r equal r", 2, &[R, (20, 0, 0)], 4, TRUE),
        // IFF(2, 1) is 2, IFF(2, -1) is -2
        case("r equal all atoms", 2, &[R, ATOMS, (20, 0, 1)], 5, ALL_OF_R),
        case("r equal no atom", 2, &[R, ATOMS, (7, 1, 1), (20, 0, 2)], 5, NONE_OF_R),
        case("some t iff not", 2, &[T, (22, 0, 0), (30, 1, 0), (34, 1, 2)], 4, FALSE),
        case("all atoms equal no atom", 2, &[ATOMS, (7, 0, 0), (20, 0, 1)], 4, FALSE),
        case("r within all atoms", 2, &[R, ATOMS, (21, 0, 1)], 4, TRUE),
        case("all atoms within r", 2, &[ATOMS, R, (21, 0, 1)], 5, ALL_OF_R),
    ]
}

/// Quantifiers, "at most one" and closure.
fn long_lists() -> Vec<Case> {
    const ALL_OF_R: &[&[i32]] = &[&[1], &[5, 2], &[5, 3], &[-5, -2, -3], &[-5]];
    // of 1, 3, 4 the pairs are -3, -4, gate 6; of 2, 1, 4 they are -2, gate 8, -4; of 2, 3, 1 gate 10, -2, -3
    #[rustfmt::skip]
    const LONE: &[&[i32]] = &[
        &[1],
        &[6, 3], &[6, 4], &[-6, -3, -4], &[7, -3], &[7, -4], &[7, 6], &[-7, 3, 4, -6],
        &[8, 2], &[8, 4], &[-8, -2, -4], &[9, -2], &[9, 8], &[9, -4], &[-9, 2, -8, 4],
        &[10, 2], &[10, 3], &[-10, -2, -3], &[11, 10], &[11, -2], &[11, -3], &[-11, -10, 2, 3],
        &[12, 7], &[12, 9], &[12, 11], &[-12, -7, -9, -11], &[12],
    ];
    vec![
        case("for all x: x within r", 2, &[X, R, (21, 0, 1), (40, 0, 2)], 5, ALL_OF_R),
        case("for all x: some t", 2, &[T, (22, 0, 0), (40, 0, 1)], 4, &[&[1], &[4]]),
        case("for some x: some x", 2, &[X, (22, 0, 0), (41, 0, 1)], 4, TRUE),
        case("at most one atom", 2, &[ATOMS, (24, 0, 0)], 4, FALSE),
        case("at most one x for which some t", 3, &[T, (22, 0, 0), (12, 0, 1), (24, 2, 0)], 5, &[&[1], &[-5]]),
        case("for some x: at most one of r with x", 3, &[R, X, (5, 0, 1), (24, 2, 0), (41, 0, 3)], 12, LONE),
        case("some closure of the identity", 3, &[IDENTITY, (11, 0, 0), (22, 1, 0)], 5, TRUE),
        case("some closure of one literal", 2, ONE_LITERAL, 4, &[&[1], &[4]]),
    ]
}

/// The product of the x for which some t with all atoms, closed.
const ONE_LITERAL: Nodes = &[T, (22, 0, 0), (12, 0, 1), ATOMS, (9, 2, 3), (11, 4, 0), (22, 5, 0)];

#[test]
fn by_hand() {
    let mut met = [0; crate::clauses::MET.len()];
    for case in cases() {
        assert!(crate::sheet::read(&case.sheet.bytes()).is_ok(), "{}", case.name);
        let got = crate::clauses::translate(&case.sheet).expect(case.name);
        assert_eq!(got.variables, case.variables, "{}", case.name);
        assert_eq!(got.clauses, case.clauses, "{}", case.name);
        met.iter_mut().zip(got.met).for_each(|(sum, times)| *sum += times);
    }
    assert!(met.iter().all(|&times| times > 0), "{met:?}");
}
