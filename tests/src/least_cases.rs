//! Change 5 of document 02 by hand: sheets with all their satisfying instances, of which the first is printed.

use crate::brute::{instances, least};
use crate::finder::{find, finder};
use crate::long_search::long;
use crate::search::Steps;
use crate::sheet::{read, Node, Relation, Sheet};

/// One set of three cells with a mark, and a formula of these nodes; node 0 is the set.
fn three(mark: u8, nodes: &[(u8, u8, u8)]) -> Sheet {
    let set = Relation { columns: 1, mark, first: 0, second: 0 };
    let nodes = [&[(1, 0, 0)], nodes].concat().into_iter().map(|(kind, a, b)| Node { kind, a, b }).collect();
    Sheet { scopes: vec![3], variables: vec![], relations: vec![set], nodes }
}

/// All satisfying instances of a sheet, as digits; the first of them is `least`.
fn all(sheet: &Sheet) -> Vec<String> {
    let digits = |cells: &[u8]| cells.iter().map(|cell| cell.to_string()).collect();
    let all = instances(sheet);
    assert_eq!(least(sheet).as_ref(), all.first());
    all.iter().map(|cells| digits(cells)).collect()
}

/// The steps of a whole run.
fn steps(sheet: &Sheet) -> Steps {
    let answer = find(&sheet.bytes(), &mut [0; 99], &mut [0; 9], &mut [0; 9], &mut [0; 9], 99);
    answer.expect("slices that are long enough").steps
}

#[test]
fn the_first_of_three() {
    let k1 = read(&[1, 0, 1, 2, 0, 0, 0, 4, 1, 0, 0, 0, 0, 6, 1, 0, 0, 22, 0, 0]).expect("K1");
    assert_eq!(all(&k1), ["01", "10", "11"]);
    assert_eq!(finder(&k1.bytes()), "found 4\nr0 01\n");
}

/// The empty set comes first where it satisfies, the last cell alone where one must be 1, all cells where all must.
#[test]
fn by_the_marks_and_the_formula() {
    let (at_most_one, some, all_atoms) = ([(24, 0, 0)], [(22, 0, 0)], [(3, 0, 0), (20, 0, 1)]);
    assert_eq!(all(&three(0, &at_most_one)), ["000", "001", "010", "100"]);
    assert_eq!(all(&three(1, &some)), ["001", "010", "100"]);
    assert_eq!(all(&three(0, &all_atoms)), ["111"]);
    for (sheet, want) in [
        (three(0, &at_most_one), "000"),
        (three(1, &some), "001"),
        (three(2, &some), "001"),
        (three(0, &all_atoms), "111"),
    ] {
        assert!(finder(&sheet.bytes()).ends_with(&format!("\nr0 {want}\n")));
    }
}

/// The first cell is chosen with 0, which clashes later on, and is turned.
#[test]
fn a_one_by_a_turn() {
    let late = long(&[], 0, true);
    assert_eq!(all(&late), ["101", "110"]);
    assert!(finder(&late.bytes()).ends_with("\nr0 1\nr1 01\n"));
    assert_eq!(steps(&late).turns, 2);
    // not at most one: two cells or more
    let two = three(0, &[(24, 0, 0), (30, 1, 0)]);
    assert_eq!(all(&two), ["011", "101", "110", "111"]);
    assert!(finder(&two.bytes()).ends_with("\nr0 011\n"));
}

/// By rows, and within a row by columns; a relation after those before it.
#[test]
fn in_variable_order() {
    let set = Relation { columns: 1, mark: 0, first: 0, second: 0 };
    let pairs = Relation { columns: 2, mark: 0, first: 0, second: 1 };
    let nodes = [(1, 0, 0), (22, 0, 0), (1, 1, 0), (22, 2, 0), (32, 1, 3)];
    let nodes = nodes.map(|(kind, a, b)| Node { kind, a, b }).to_vec();
    let mut sheet = Sheet { scopes: vec![2, 3], variables: vec![], relations: vec![set, pairs], nodes };
    assert!(finder(&sheet.bytes()).ends_with("\nr0 00\nr1 000 001\n"));
    sheet.relations[1].mark = 2;
    assert!(finder(&sheet.bytes()).ends_with("\nr0 00\nr1 001 001\n"));
    sheet.relations.swap(0, 1);
    sheet.nodes[4].kind = 31;
    assert!(finder(&sheet.bytes()).ends_with("\nr0 001 001\nr1 01\n"));
}
