//! The cases K1 to K10 of document 01, and the traps that it names.

use crate::clauses::{count, translate, write, Size};
use crate::dimacs::{parse, size, text, write as write_text};
use crate::finder::{find, finder};
use crate::long_search::long;
use crate::meaning::check;
use crate::random_sheet::{gates_of, pigeonhole, walk_of};
use crate::search::{search, Answer, End, Steps};
use crate::sheet::*;

const TEXT: &str = "p cnf 4 5\n1 0\n4 -2 0\n4 -3 0\n-4 2 3 0\n4 0\n";

fn node(kind: u8, a: u8, b: u8) -> Node {
    Node { kind, a, b }
}

/// One sort of this scope, one relation of it with itself or one set, and these nodes.
fn one(scope: u8, columns: u8, mark: u8, nodes: &[Node]) -> Sheet {
    let relation = Relation { columns, mark, first: 0, second: 0 };
    Sheet { scopes: vec![scope], variables: vec![0], relations: vec![relation], nodes: nodes.to_vec() }
}

fn k1() -> Vec<u8> {
    vec![1, 0, 1, 2, 0, 0, 0, 4, 1, 0, 0, 0, 0, 6, 1, 0, 0, 22, 0, 0]
}

fn k2() -> Vec<u8> {
    let mut sheet = k1();
    sheet[9] = 2;
    sheet
}

fn k3() -> Vec<u8> {
    let mut sheet = k2();
    sheet[13] = 9;
    sheet.extend([30, 1, 0]);
    sheet
}

/// An end after so many forces, choices and turns.
const fn after(end: End, forces: u64, choices: u64, turns: u64) -> Answer {
    Answer { end, steps: Steps::new(forces, choices, turns) }
}

/// The answer of a whole run over slices that are long enough.
fn whole(sheet: &[u8]) -> Result<Answer, u32> {
    find(sheet, &mut [0; 99], &mut [0; 9], &mut [0; 9], &mut [0; 9], 1_000_000)
}

#[test]
fn k1_some() {
    let mut list = [77; 16];
    assert_eq!(write(&k1(), &mut list), Ok(Size { variables: 4, clauses: 5, words: 14 }));
    assert_eq!(list, [1, 1, 2, 4, -2, 2, 4, -3, 3, -4, 2, 3, 1, 4, 77, 77]);
    assert_eq!(text(&list[..14], 4).as_deref(), Ok(TEXT));
    assert_eq!(finder(&k1()), "found 4\nr0 01\n");
    assert_eq!(whole(&k1()), Ok(after(End::Found, 3, 1, 0)));
}

#[test]
fn k2_exactly_one() {
    assert_eq!(count(&k2()), Ok(Size { variables: 4, clauses: 7, words: 20 }));
    assert_eq!(finder(&k2()), "found 4\nr0 01\n");
    assert_eq!(whole(&k2()), Ok(after(End::Found, 3, 1, 0)));
}

#[test]
fn k3_not() {
    assert_eq!(finder(&k3()), "none 4\n");
    assert_eq!(whole(&k3()), Ok(after(End::None, 4, 0, 0)));
}

#[test]
fn k4_spent() {
    let (mut list, mut values, mut trail, mut instance) = ([0; 14], [9; 5], [9; 5], [9; 3]);
    let answer = find(&k1(), &mut list, &mut values, &mut trail, &mut instance, 3);
    assert_eq!(answer, Ok(after(End::Spent, 2, 1, 0)));
    assert_eq!((values, trail, instance), ([1, 3, 2, 1, 9], [1, 4, -2, 0, 9], [9; 3]));
}

#[test]
fn k5_at_most_one() {
    let clauses = translate(&one(2, 1, 0, &[node(1, 0, 0), node(24, 0, 0)])).unwrap().clauses;
    assert_eq!(clauses, [vec![1], vec![4, 2], vec![4, 3], vec![-4, -2, -3], vec![4]]);
}

#[test]
fn k6_closure_at_scope_1() {
    let clauses = translate(&one(1, 2, 0, &[node(1, 0, 0), node(11, 0, 0), node(22, 1, 0)])).unwrap();
    assert_eq!((clauses.variables, clauses.clauses), (2, vec![vec![1], vec![2]]));
}

#[test]
fn k7_no_bytes() {
    assert_eq!(read(&[]), Err(VERSION));
}

#[test]
fn k8_scopes() {
    let nodes = [node(1, 0, 0), node(22, 0, 0)];
    assert!(read(&one(8, 1, 0, &nodes).bytes()).is_ok());
    assert_eq!(read(&one(9, 1, 0, &nodes).bytes()), Err(SCOPE));
}

#[test]
fn k9_node_names_itself() {
    assert_eq!(read(&one(2, 1, 0, &[node(1, 0, 0), node(22, 1, 0)]).bytes()), Err(NODE));
}

#[test]
fn k10_set_joined_with_set() {
    let nodes = [node(1, 0, 0), node(8, 0, 0), node(22, 1, 0)];
    assert_eq!(read(&one(2, 1, 0, &nodes).bytes()), Err(SHAPE));
}

#[test]
fn lengths() {
    // the version alone, a cut length field, a block past the end, a byte behind the last block
    assert_eq!(read(&[1]), Err(LENGTH));
    assert_eq!(read(&k1()[..2]), Err(LENGTH));
    assert_eq!(read(&k1()[..19]), Err(LENGTH));
    assert_eq!(read(&[k1(), vec![0]].concat()), Err(LENGTH));
    // no whole count of records goes before a count outside its range
    assert_eq!(read(&[1, 0, 0, 0, 0, 0, 3, 1, 0, 0, 0, 0]), Err(LENGTH));
    assert_eq!(read(&[1, 0, 0, 0, 0, 0, 0, 0, 0]), Err(COUNT));
}

#[test]
fn each_number_over_all_of_its_input() {
    // a bad last scope goes before a bad first declaration, which goes before a bad first node
    let mut sheet = one(2, 1, 3, &[node(0, 0, 0), node(22, 0, 0)]);
    sheet.scopes.push(9);
    assert_eq!(read(&sheet.bytes()), Err(SCOPE));
    sheet.scopes.pop();
    assert_eq!(read(&sheet.bytes()), Err(DECLARATION));
    sheet.relations[0].mark = 0;
    assert_eq!(read(&sheet.bytes()), Err(NODE));
    // a bad last node goes before a bad first shape
    let mut sheet = one(2, 1, 0, &[node(1, 0, 0), node(8, 0, 0), node(22, 0, 1)]);
    assert_eq!(read(&sheet.bytes()), Err(NODE));
    sheet.nodes[2].b = 0;
    assert_eq!(read(&sheet.bytes()), Err(SHAPE));
}

#[test]
fn bound_on_every_path() {
    let bound = [node(2, 0, 0), node(22, 0, 0), node(41, 0, 1), node(31, 2, 2)];
    assert!(read(&one(2, 1, 0, &bound).bytes()).is_ok());
    let unbound = [node(2, 0, 0), node(22, 0, 0), node(41, 0, 1), node(31, 2, 1)];
    assert_eq!(read(&one(2, 1, 0, &unbound).bytes()), Err(ROOT));
    let unreached = [node(2, 0, 0), node(1, 0, 0), node(22, 1, 0)];
    assert!(read(&one(2, 1, 0, &unreached).bytes()).is_ok());
}

#[test]
fn walks() {
    for figure in [2, 3, 4, 5, 6, 7, 999_999, 1_000_000, 1_000_001, 1 << 70] {
        let sheet = walk_of(figure);
        assert_eq!(visits(&sheet), figure);
        assert_eq!(read(&sheet.bytes()).is_ok(), figure <= 1_000_000);
    }
    let mut tower = walk_of(2);
    (1..199).for_each(|last| tower.nodes.push(node(31, last, last)));
    assert_eq!((tower.nodes.len(), read(&tower.bytes())), (200, Err(WALK)));
}

#[test]
fn sizes() {
    for gates in [1, 2, 3, 10, 11, 15_995, 15_996, 15_997] {
        let variables = count(&gates_of(gates).bytes()).map(|size| size.variables as usize);
        assert_eq!(variables, if gates + 4 <= 16_000 { Ok(gates + 4) } else { Err(SIZE) });
    }
    // the constant, the cells, the closure and "some": a sheet of `closures` without its binders
    let closure = one(8, 2, 0, &[node(1, 0, 0), node(11, 0, 0), node(22, 1, 0)]);
    assert_eq!(count(&closure.bytes()).map(|size| size.variables), Ok(1 + 64 + 1_896 + 1));
}

#[test]
fn pigeonholes() {
    assert!(finder(&pigeonhole(0, 5, 4).bytes()).starts_with("none "));
    assert!(finder(&pigeonhole(1, 3, 2).bytes()).starts_with("none "));
    let found = finder(&pigeonhole(0, 3, 3).bytes());
    assert!(found.starts_with("found ") && found.ends_with("\nr0 001 010 100\nr1 001 010 100\n"), "{found}");
}

#[test]
fn an_empty_row_has_at_most_one() {
    let sheet = |mark| one(2, 2, mark, &[node(1, 0, 0), node(23, 0, 0)]).bytes();
    let answers: Vec<_> = (0..3).map(|mark| check(&sheet(mark), &[0; 4])).collect();
    assert_eq!(answers, [Ok(true), Ok(true), Ok(false)]);
}

#[test]
fn three_rounds_at_scope_5() {
    // in a ring of five an atom comes back to itself in five steps, which two rounds do not reach
    let ring = |cell: usize| (cell / 5 + 1) % 5 == cell % 5;
    let cells: Vec<u8> = (0..25).map(|cell| u8::from(ring(cell))).collect();
    let nodes = [node(1, 0, 0), node(11, 0, 0), node(4, 0, 0), node(21, 2, 1)];
    let sheet = one(5, 2, 0, &nodes);
    assert_eq!(check(&sheet.bytes(), &cells), Ok(true));
    let mut clauses = translate(&sheet).unwrap();
    // a cell of the diagonal has itself twice as a middle, which makes no gate; within the identity makes one gate of five
    let gates = |n: u32| n * n * (n + 1) - n + n * n;
    assert_eq!(clauses.variables, 1 + 25 + 3 * gates(5) + 1);
    // the same by clauses: with the ring's cells as units the list is satisfiable
    let unit = |cell: usize| vec![if ring(cell) { cell as i32 + 2 } else { -(cell as i32 + 2) }];
    clauses.clauses.extend((0..25).map(unit));
    let (mut values, mut trail) = (vec![0; clauses.variables as usize], vec![0; clauses.variables as usize]);
    let answer = search(&clauses.words(), clauses.variables, &mut values, &mut trail, 1_000_000);
    assert_eq!(answer.map(|answer| answer.end), Ok(End::Found));
}

#[test]
fn the_innermost_binder_counts() {
    // for all x: some (x such that x in r) says "some r", whatever the outer x
    let nodes = [node(2, 0, 0), node(1, 0, 0), node(21, 0, 1), node(41, 0, 2), node(40, 0, 3)];
    let sheet = one(2, 1, 0, &nodes).bytes();
    let answers: Vec<_> = [[0, 0], [0, 1], [1, 0]].iter().map(|cells| check(&sheet, cells)).collect();
    assert_eq!(answers, [Ok(false), Ok(true), Ok(true)]);
}

#[test]
fn no_force_from_an_open_variable_with_both_signs() {
    let (mut values, mut trail) = ([0; 2], [0; 2]);
    let answer = search(&[2, 1, -1, 2, 2, 2], 2, &mut values, &mut trail, 9);
    assert_eq!(answer, Ok(after(End::Found, 1, 1, 0)));
    // the twin forces 2, then 1 is chosen
    assert_eq!((values, trail), ([3, 1], [2, -1]));
}

#[test]
fn lists() {
    let refused = |list: &[i32], v: u32| search(list, v, &mut [0; 9], &mut [0; 9], 0) == Err(LIST);
    assert!(refused(&[], 0) && refused(&[], 16_001) && !refused(&[], 9));
    assert!(refused(&[0], 2) && refused(&[-1, 1], 2) && refused(&[2, 1], 2) && refused(&[1], 2));
    assert!(refused(&[1, 0], 2) && refused(&[1, 3], 2) && refused(&[1, -3], 2) && refused(&[1, i32::MIN], 2));
    assert!(!refused(&[1, 2, 1, -2], 2));
    assert_eq!(search(&[1, 3], 3, &mut [0; 2], &mut [0; 3], 0), Err(SHORT));
    assert_eq!(search(&[1, 3], 3, &mut [0; 3], &mut [0; 2], 0), Err(SHORT));
}

#[test]
fn an_end_goes_before_the_budget() {
    let end = |list: &[i32], budget| search(list, 2, &mut [0; 2], &mut [0; 2], budget).unwrap();
    assert_eq!(end(&[1, 1, 1, -1], 1), after(End::None, 1, 0, 0));
    assert_eq!(end(&[], 2), after(End::Found, 0, 2, 0));
    assert_eq!(end(&[], 1), after(End::Spent, 0, 1, 0));
}

/// (1 2) (1 -2): -1 is chosen, 2 forced, the choice turned, -2 chosen.
#[test]
fn each_kind_of_step() {
    let answer = |budget| search(&[2, 1, 2, 2, 1, -2], 2, &mut [0; 2], &mut [0; 2], budget).unwrap();
    let spent = [(0, 0, 0), (0, 1, 0), (1, 1, 0), (1, 1, 1)];
    for (budget, (forces, choices, turns)) in (0..).zip(spent) {
        assert_eq!(answer(budget), after(End::Spent, forces, choices, turns));
    }
    assert_eq!((answer(4), answer(u64::MAX)), (after(End::Found, 1, 2, 1), after(End::Found, 1, 2, 1)));
    // 1 and 6 are forced, -2 is chosen, 3, 4 and 5 are forced, the choice is turned, -3, 4 and 5 are forced
    assert_eq!(whole(&long(&[], 0, false).bytes()), Ok(after(End::None, 8, 1, 1)));
}

#[test]
fn the_sum_does_not_wrap() {
    let most = u64::MAX;
    assert_eq!(Steps::default().sum(), 0);
    assert_eq!(Steps::new(1, 20, 300).sum(), 321);
    assert_eq!(Steps::new(most, most, most).sum(), 3 * ((1 << 64) - 1));
}

/// K1's text has 41 bytes, in lines of 10, 4, 7, 7, 9 and 4.
#[test]
fn a_text_to_the_byte() {
    let list = [1, 1, 2, 4, -2, 2, 4, -3, 3, -4, 2, 3, 1, 4];
    assert_eq!((size(&list, 4), size(&[], 16_000), size(&list, 3)), (Ok(41), Ok(14), Err(LIST)));
    for (length, left) in [(41, ""), (42, "#"), (200, &"#".repeat(159))] {
        let mut out = vec![b'#'; length];
        assert_eq!(write_text(&list, 4, &mut out), Ok(41));
        assert_eq!(String::from_utf8(out).unwrap(), TEXT.to_owned() + left);
    }
    for length in 0..41 {
        let mut out = vec![b'#'; length];
        assert_eq!((write_text(&list, 3, &mut out), write_text(&list, 4, &mut out)), (Err(LIST), Err(SHORT)));
        assert_eq!(out, vec![b'#'; length]);
    }
}

/// Each further digit, and a minus, is one byte more; a clause has three for its 0.
#[test]
fn each_digit_is_a_byte() {
    let edges =
        [(1, 1), (9, 1), (10, 2), (99, 2), (100, 3), (999, 3), (1_000, 4), (9_999, 4), (10_000, 5), (16_000, 5)];
    for (edge, digits) in edges {
        assert_eq!(size(&[1, edge], 16_000), Ok(14 + digits + 3));
        assert_eq!(size(&[1, -edge], 16_000), Ok(14 + 1 + digits + 3));
        assert_eq!(size(&[], edge as u32), Ok(9 + digits));
    }
    let counts = [(1, 1), (9, 1), (10, 2), (99, 2), (100, 3), (9_999, 4), (10_000, 5), (99_999, 5), (100_000, 6)];
    for (clauses, digits) in counts {
        assert_eq!(size(&[1, 1].repeat(clauses), 1), Ok(9 + digits + 4 * clauses as u64));
    }
}

#[test]
fn texts_are_read_back() {
    assert_eq!(parse(TEXT.as_bytes()).unwrap().0, 4);
    let wrong =
        ["", "p cnf 1 1\n1 0", "p cnf 1 1\n1  0\n", "p cnf 1 1\n2 0\n", "p cnf 1 2\n1 0\n", "p cnf 1 1\n1 0 \n"];
    assert!(wrong.iter().all(|text| parse(text.as_bytes()).is_err()));
}
