//! Scopes as upper limits (document 02, Change 8): sheets worked out by hand, and what a sheet and an instance have of
//! it, for suites that want to have met each.

use crate::meaning::decode;
use crate::random_sheet::walk_of;
use crate::sheet::{fields, Field, Node, Relation, Sheet};
use crate::struck::Case;

/// Nodes as kind, a, b.
type Nodes = &'static [(u8, u8, u8)];

/// A relation as columns, mark, first sort, second sort.
type Declared = (u8, u8, u8, u8);

fn sheet(scopes: &[u8], variables: &[u8], relations: &[Declared], nodes: &[(u8, u8, u8)]) -> Sheet {
    let relation = |&(columns, mark, first, second): &Declared| Relation { columns, mark, first, second };
    Sheet {
        scopes: scopes.to_vec(),
        variables: variables.to_vec(),
        relations: relations.iter().map(relation).collect(),
        nodes: nodes.iter().map(|&(kind, a, b)| Node { kind, a, b }).collect(),
    }
}

/// Up to two atoms, with the members 2 and 3; one relation; x is a variable of their sort, y one of a sort of exactly
/// two.
fn up_to_two(relation: Declared, nodes: &[(u8, u8, u8)]) -> Sheet {
    sheet(&[130, 2], &[0, 1], &[relation], nodes)
}

/// A free set of up to two atoms, 4 and 5.
const SET: Declared = (1, 0, 0, 0);
const R: (u8, u8, u8) = (1, 0, 0);
const X: (u8, u8, u8) = (2, 0, 0);
const ATOMS: (u8, u8, u8) = (3, 0, 0);
const IDENTITY: (u8, u8, u8) = (4, 0, 0);

/// K1 of up to so many atoms: some r.
pub fn some(scope: u8) -> Sheet {
    sheet(&[scope], &[], &[SET], &[R, (22, 0, 0)])
}

/// Sheets with their clauses.
pub fn cases() -> Vec<Case> {
    [declared(), constants(), guards()].into_iter().flatten().collect()
}

fn case(name: &'static str, sheet: Sheet, variables: u32, clauses: &'static [&'static [i32]]) -> Case {
    Case { name, sheet, variables, clauses }
}

/// Membership clauses and marks.
fn declared() -> Vec<Case> {
    let two_of = [(1, 2, 0, 0), (2, 1, 2, 0)];
    vec![
        case("some r", some(130), 6, SOME_R),
        case("mark 2 on a set", up_to_two((1, 2, 0, 0), &[R, (22, 0, 0)]), 6, MARKED_SET),
        case("mark 2 over one sort", up_to_two((2, 2, 0, 0), &[R, (23, 0, 0)]), 8, MARKED_PAIRS),
        case("the first sort", sheet(&[129, 2], &[], &[(2, 2, 0, 1)], &[R, (22, 0, 0)]), 5, FIRST_SORT),
        case("the second sort", up_to_two((2, 2, 1, 0), &[ATOMS, (23, 0, 0)]), 8, SECOND_SORT),
        case("two relations", sheet(&[130, 2, 129], &[], &two_of, &[(1, 1, 0), (22, 0, 0)]), 9, TWO_RELATIONS),
        case("closure of one atom", sheet(&[129], &[], &[(2, 0, 0, 0)], CLOSURE), 3, &[&[1], &[-3, 2], &[-3, 2], &[3]]),
    ]
}

const CLOSURE: Nodes = &[R, (11, 0, 0), (22, 1, 0)];

const SOME_R: &[&[i32]] = &[&[1], &[-4, 2], &[-5, 3], &[6, -4], &[6, -5], &[-6, 4, 5], &[6]];

const MARKED_SET: &[&[i32]] = &[&[1], &[-4, 2], &[-5, 3], &[-4, -5], &[4, 5], &[6, -4], &[6, -5], &[-6, 4, 5], &[6]];

/// A cell of the diagonal has one member twice. A row of a member has a value.
#[rustfmt::skip]
const MARKED_PAIRS: &[&[i32]] = &[
    &[1],
    &[-4, 2], &[-4, 2], &[-5, 2], &[-5, 3], &[-6, 3], &[-6, 2], &[-7, 3], &[-7, 3],
    &[-4, -5], &[-2, 4, 5], &[-6, -7], &[-3, 6, 7],
    &[8, -4], &[8, -5], &[8, -6], &[8, -7], &[-8, 4, 5, 6, 7], &[-8],
];

const FIRST_SORT: &[&[i32]] =
    &[&[1], &[-3, 2], &[-4, 2], &[-3, -4], &[-2, 3, 4], &[5, -3], &[5, -4], &[-5, 3, 4], &[5]];

/// A row of an atom that is there in any case has a value.
#[rustfmt::skip]
const SECOND_SORT: &[&[i32]] = &[
    &[1],
    &[-4, 2], &[-5, 3], &[-6, 2], &[-7, 3], &[-4, -5], &[4, 5], &[-6, -7], &[6, 7],
    &[8, -2], &[8, -3], &[-8, 2, 3], &[-8],
];

/// The members 2 and 3 are of sort 0, and 4 is of sort 2. All of their clauses come before the marks.
#[rustfmt::skip]
const TWO_RELATIONS: &[&[i32]] = &[
    &[1],
    &[-5, 2], &[-6, 3], &[-7, 4], &[-7, 2], &[-8, 4], &[-8, 3], &[-5, -6], &[5, 6], &[-7, -8],
    &[9, -7], &[9, -8], &[-9, 7, 8], &[9],
];

/// Kinds 2, 3 and 4, and bodies that are constants.
fn constants() -> Vec<Case> {
    const SOME_ATOM: &[&[i32]] = &[&[1], &[-4, 2], &[-5, 3], &[6, -2], &[6, -3], &[-6, 2, 3], &[6]];
    const NO_ATOM: &[&[i32]] = &[&[1], &[-4, 2], &[-5, 3], &[6, -2], &[6, -3], &[-6, 2, 3], &[-6]];
    const TRUE: &[&[i32]] = &[&[1], &[-4, 2], &[-5, 3], &[1]];
    #[rustfmt::skip]
    const JOINED: &[&[i32]] = &[
        &[1], &[-4, 2], &[-5, 3],
        &[6, 4], &[6, 2], &[-6, -4, -2], &[7, 5], &[7, 3], &[-7, -5, -3], &[8, 6], &[8, 7], &[-8, -6, -7], &[8],
    ];
    let of = |nodes: Nodes| up_to_two(SET, nodes);
    vec![
        case("some atom", of(&[ATOMS, (22, 0, 0)]), 6, SOME_ATOM),
        case("some pair of the identity", of(&[IDENTITY, (22, 0, 0)]), 6, SOME_ATOM),
        // the middles of r joined with the identity are AND(4, 2), -1 and -1, AND(5, 3)
        case("some r.identity", of(&[R, IDENTITY, (8, 0, 1), (22, 2, 0)]), 8, JOINED),
        case("for some x: some x", of(&[X, (22, 0, 0), (41, 0, 1)]), 6, SOME_ATOM),
        case("for all x: no x", of(&[X, (23, 0, 0), (40, 0, 1)]), 6, NO_ATOM),
        case("for all x: some x", of(&[X, (22, 0, 0), (40, 0, 1)]), 5, TRUE),
        case("some (x for which some x)", of(&[X, (22, 0, 0), (12, 0, 1), (22, 2, 0)]), 6, SOME_ATOM),
    ]
}

/// Binders: each guard after the body's last walk, and then the outer list.
fn guards() -> Vec<Case> {
    #[rustfmt::skip]
    const ALL_IN_R: &[&[i32]] = &[
        &[1], &[-4, 2], &[-5, 3],
        &[6, 2], &[6, -4], &[-6, -2, 4], &[7, 3], &[7, -5], &[-7, -3, 5], &[8, 6], &[8, 7], &[-8, -6, -7], &[-8],
    ];
    #[rustfmt::skip]
    const SOME_IN_R: &[&[i32]] = &[
        &[1], &[-4, 2], &[-5, 3],
        &[6, 2], &[6, 4], &[-6, -2, -4], &[7, 3], &[7, 5], &[-7, -3, -5], &[8, 6], &[8, 7], &[-8, -6, -7], &[8],
    ];
    let of = |nodes: Nodes| up_to_two(SET, nodes);
    let walks = |kind: u8, a: u8| up_to_two(SET, &[R, (22, 0, 0), (kind, a, 1)]);
    let set = up_to_two(SET, &[R, (22, 0, 0), (12, 0, 1), (22, 2, 0)]);
    vec![
        case("for all x: x within r", of(&[X, R, (21, 0, 1), (40, 0, 2)]), 8, ALL_IN_R),
        case("for some x: x within r", of(&[X, R, (21, 0, 1), (41, 0, 2)]), 8, SOME_IN_R),
        case("for all x: some r", walks(40, 0), 10, ALL_WALKS),
        case("for some x: some r", walks(41, 0), 10, SOME_WALKS),
        case("some (x for which some r)", set, 10, SOME_WALKS),
        case("for all y: some r", walks(40, 1), 8, OTHER_SORT),
    ]
}

#[rustfmt::skip]
const ALL_WALKS: &[&[i32]] = &[
    &[1], &[-4, 2], &[-5, 3],
    &[6, -4], &[6, -5], &[-6, 4, 5], &[7, -4], &[7, -5], &[-7, 4, 5],
    &[8, 2], &[8, -6], &[-8, -2, 6], &[9, 3], &[9, -7], &[-9, -3, 7], &[10, 8], &[10, 9], &[-10, -8, -9], &[-10],
];

#[rustfmt::skip]
const SOME_WALKS: &[&[i32]] = &[
    &[1], &[-4, 2], &[-5, 3],
    &[6, -4], &[6, -5], &[-6, 4, 5], &[7, -4], &[7, -5], &[-7, 4, 5],
    &[8, 2], &[8, 6], &[-8, -2, -6], &[9, 3], &[9, 7], &[-9, -3, -7], &[10, 8], &[10, 9], &[-10, -8, -9], &[10],
];

/// y is of a sort of exactly two, so that nothing is guarded.
#[rustfmt::skip]
const OTHER_SORT: &[&[i32]] = &[
    &[1], &[-4, 2], &[-5, 3],
    &[6, -4], &[6, -5], &[-6, 4, 5], &[7, -4], &[7, -5], &[-7, 4, 5], &[8, 6], &[8, 7], &[-8, -6, -7], &[-8],
];

/// Instances as digits.
type Digits = &'static [&'static str];

/// Sheets with instances that the check says yes to, and such that it says no to: a 1 of an atom that is no member,
/// also where marks and formula hold by themselves; a member without a value; an empty sort.
pub fn checks() -> Vec<(Sheet, Digits, Digits)> {
    let pairs = |mark, first, nodes: Nodes| up_to_two((2, mark, first, 0), nodes);
    let of = |nodes: Nodes| up_to_two(SET, nodes);
    const ANY: Nodes = &[R, (20, 0, 0)];
    const LOOPS: Nodes = &[R, (11, 0, 0), IDENTITY, (21, 2, 1)];
    vec![
        (some(130), &["0101", "1010", "1111"], &["0000", "0001", "1001", "1011", "0111"]),
        (pairs(2, 0, &[R, (23, 0, 0)]), &["000000"], &["100000"]),
        (pairs(2, 0, ANY), &["101000", "111010", "010001"], &["000010", "100100", "101010", "111000"]),
        (pairs(2, 1, ANY), &["010101", "110110"], &["000000", "101001", "110100"]),
        (pairs(1, 0, ANY), &["000000", "110001"], &["000001", "100001"]),
        (up_to_two((1, 2, 0, 0), ANY), &["0101"], &["0000", "1001", "1100"]),
        (of(&[X, R, (21, 0, 1), (40, 0, 2)]), &["0000", "0101", "1111"], &["0100", "0111", "0010"]),
        (of(&[X, R, (21, 0, 1), (41, 0, 2)]), &["1110", "0101"], &["0000", "0100", "0010"]),
        (of(&[X, (22, 0, 0), (41, 0, 1)]), &["1000", "1111"], &["0000"]),
        (of(&[X, (23, 0, 0), (40, 0, 1)]), &["0000"], &["0100", "1100"]),
        (of(&[X, (22, 0, 0), (12, 0, 1), ATOMS, (20, 2, 3)]), &["0000", "1000", "1111"], &["0001"]),
        (of(&[X, (22, 0, 0), (12, 0, 1), (23, 2, 0)]), &["0000"], &["0100", "1111"]),
        (of(&[ATOMS, R, (20, 0, 1)]), &["0000", "1010"], &["1000", "0010"]),
        (pairs(0, 0, LOOPS), &["000000", "101000", "110110"], &["100000", "011001", "010110"]),
    ]
}

/// Bytes for `some(130)` that are not one 0 or 1 for each cell.
pub const NO_CELLS: [&[u8]; 9] = [
    &[],
    &[0, 1],
    &[0, 1, 0],
    &[0, 1, 0, 1, 0],
    &[2, 1, 0, 1],
    &[0, 255, 0, 1],
    &[0, 1, 0, 2],
    &[0, 0, 0, 2],
    &[3, 1, 1, 1],
];

/// The bytes of digits.
pub fn digits(text: &str) -> Vec<u8> {
    text.bytes().map(|digit| digit - b'0').collect()
}

/// Sheets, and what the program prints that gives every case.
pub fn texts() -> Vec<(Sheet, &'static str)> {
    const SOME: &str =
        "found 6\ns0 01\nr0 01\nfound 10\ns0 10\nr0 10\nfound 13\ns0 11\nr0 01\nfound 15\ns0 11\nr0 10\n\
                        found 16\ns0 11\nr0 11\nnone 16\n";
    const NONE: &str =
        "found 6\ns0 00\nr0 00\nfound 7\ns0 01\nr0 00\nfound 9\ns0 10\nr0 00\nfound 10\ns0 11\nr0 00\nnone 10\n";
    // 1, -8, -3 and -4 are forced, -2 is chosen, and -5, -6 and -7 follow; where 2 is turned they are chosen
    let empty = sheet(&[2, 129, 130], &[], &[(1, 0, 1, 0), (2, 0, 0, 1)], &[(3, 2, 0), (23, 0, 0)]);
    vec![
        (some(130), SOME),
        (sheet(&[130], &[], &[SET], &[R, (23, 0, 0)]), NONE),
        (some(129), "found 3\ns0 1\nr0 1\nnone 3\n"),
        (up_to_two((2, 2, 0, 0), &[R, (23, 0, 0)]), "found 8\ns0 00\nr0 00 00\nnone 8\n"),
        (sheet(&[129], &[], &[(1, 2, 0, 0)], &[ATOMS, (23, 0, 0)]), "none 3\n"),
        (empty, EMPTY),
    ]
}

/// The first case of such a text, or its end where there is none: what the finder prints.
pub fn first_case(text: &str) -> &str {
    let is_end = |at: &usize| ["found ", "none "].iter().any(|end| text[*at..].starts_with(end));
    let second = text.match_indices('\n').map(|(at, _)| at + 1).find(is_end);
    &text[..second.unwrap_or(text.len())]
}

/// The sort 2 is empty; as long as 1 is empty too, so is each relation.
const EMPTY: &str = "\
    found 8\ns1 0\ns2 00\nr0 0\nr1 0 0\n\
    found 12\ns1 1\ns2 00\nr0 0\nr1 0 0\n\
    found 13\ns1 1\ns2 00\nr0 0\nr1 0 1\n\
    found 15\ns1 1\ns2 00\nr0 0\nr1 1 0\n\
    found 16\ns1 1\ns2 00\nr0 0\nr1 1 1\n\
    found 19\ns1 1\ns2 00\nr0 1\nr1 0 0\n\
    found 20\ns1 1\ns2 00\nr0 1\nr1 0 1\n\
    found 22\ns1 1\ns2 00\nr0 1\nr1 1 0\n\
    found 23\ns1 1\ns2 00\nr0 1\nr1 1 1\n\
    none 23\n";

/// Eight limited sorts of eight and sixteen relations between them, with a mark on so many of them: 1,088 cells. There
/// are no pairs in relation 0. The first eight are each over one sort.
pub fn largest(marked: usize, mark: u8) -> Sheet {
    let relation = |at: usize| {
        let (first, second) = ((at % 8) as u8, ((at + at / 8) % 8) as u8);
        (2, if at < marked { mark } else { 0 }, first, second)
    };
    let relations: Vec<Declared> = (0..16).map(relation).collect();
    sheet(&[136; 8], &[0], &relations, &[R, (23, 0, 0)])
}

/// A formula of so many visits for all atoms of a sort of up to eight: eight times as many, and one.
pub fn eight_walks(visits: u128) -> Sheet {
    let mut sheet = walk_of(visits);
    (sheet.scopes[0], sheet.variables) = (136, vec![0]);
    sheet.nodes.push(Node { kind: 40, a: 0, b: sheet.nodes.len() as u8 - 1 });
    sheet
}

/// What a sheet has of Change 8.
pub const LIMITS: [&str; 13] = [
    "a limited sort",
    "a limited sort beside one that is not",
    "a relation with both sorts limited",
    "the first sort alone",
    "the second sort alone",
    "a relation over one limited sort",
    "a row clause with a member",
    "mark 2 on a set over a limited sort",
    "a guarded for all",
    "a guarded for some",
    "a guarded set",
    "the atoms of a limited sort",
    "the identity on one",
];

/// Which of `LIMITS` a sheet that is accepted has; nodes count where the root reaches them.
pub fn of_sheet(sheet: &Sheet) -> [bool; LIMITS.len()] {
    let limited = |sort: u8| sheet.is_limited(sort);
    let relation = |has: &dyn Fn(&Relation) -> bool| sheet.relations.iter().any(has);
    let pairs = |r: &Relation, first: bool, second: bool| {
        r.columns == 2 && limited(r.first) == first && limited(r.second) == second
    };
    let reached = reached(sheet);
    let binder = |kind: u8| reached.iter().any(|n| n.kind == kind && limited(sheet.variables[n.a as usize]));
    let leaf = |kind: u8| reached.iter().any(|n| n.kind == kind && limited(n.a));
    let sorts = sheet.limited().count();
    [
        sorts > 0,
        sorts > 0 && sorts < sheet.scopes.len(),
        relation(&|r| pairs(r, true, true) && r.first != r.second),
        relation(&|r| pairs(r, true, false)),
        relation(&|r| pairs(r, false, true)),
        relation(&|r| pairs(r, true, true) && r.first == r.second),
        relation(&|r| r.columns == 2 && r.mark == 2 && limited(r.first)),
        relation(&|r| r.columns == 1 && r.mark == 2 && limited(r.first)),
        binder(40),
        binder(41),
        binder(12),
        leaf(3),
        leaf(4),
    ]
}

/// The nodes that the root reaches.
fn reached(sheet: &Sheet) -> Vec<Node> {
    let mut seen = vec![false; sheet.nodes.len()];
    seen[sheet.nodes.len() - 1] = true;
    for at in (0..sheet.nodes.len()).rev() {
        let node = sheet.nodes[at];
        let (a, b) = fields(node.kind).expect("a kind");
        for (field, value) in [(a, node.a), (b, node.b)] {
            if seen[at] && field == Field::Node {
                seen[value as usize] = true;
            }
        }
    }
    sheet.nodes.iter().zip(seen).filter(|(_, seen)| *seen).map(|(node, _)| *node).collect()
}

/// What an instance has of it.
pub const MEMBERS: [&str; 4] =
    ["an empty sort", "an unused atom beside a used one", "a full limited sort", "no atom at all"];

/// Which of `MEMBERS` an instance has.
pub fn of_instance(sheet: &Sheet, cells: &[u8]) -> [bool; MEMBERS.len()] {
    let atoms = decode(sheet, cells).expect("one byte for each cell").atoms;
    let sort =
        |has: &dyn Fn(usize, usize) -> bool| sheet.limited().any(|s| has(atoms[s as usize].len(), sheet.scope(s)));
    let empty = atoms.iter().all(|atoms| atoms.is_empty());
    [sort(&|used, _| used == 0), sort(&|used, most| 0 < used && used < most), sort(&|used, most| used == most), empty]
}
