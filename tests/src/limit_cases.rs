//! Change 8 of document 02: the sheets of `limits.rs`, worked out by hand, and limited sorts beside those that are not.

use crate::brute::instances;
use crate::clauses::{count, translate, Size};
use crate::every::every;
use crate::finder::finder;
use crate::limits::{
    cases, checks, digits, eight_walks, first_case, largest, of_instance, of_sheet, some, texts, LIMITS, MEMBERS,
    NO_CELLS,
};
use crate::meaning::check;
use crate::random::Source;
use crate::random_limits::{limit_some, one_outside, outside, within};
use crate::random_sheet::{instance, sheet, Style, SMALL};
use crate::sheet::*;

#[test]
fn scope_bytes() {
    let number = |scope: u8| read(&some(scope).bytes()).map(drop);
    for scope in 0..=255 {
        let fits = (1..=8).contains(&scope) || (129..=136).contains(&scope);
        assert_eq!(number(scope), if fits { Ok(()) } else { Err(SCOPE) }, "{scope}");
    }
    assert_eq!((number(128), number(129), number(136), number(137)), (Err(SCOPE), Ok(()), Ok(()), Err(SCOPE)));
    assert_eq!((some(130).cells(), some(136).cells(), some(8).cells()), (4, 16, 8));
}

#[test]
fn clauses_by_hand() {
    let mut met = [false; LIMITS.len()];
    for case in cases() {
        assert!(read(&case.sheet.bytes()).is_ok(), "{}", case.name);
        let got = translate(&case.sheet).expect(case.name);
        assert_eq!(got.clauses, case.clauses, "{}", case.name);
        assert_eq!(got.variables, case.variables, "{}", case.name);
        met.iter_mut().zip(of_sheet(&case.sheet)).for_each(|(all, here)| *all |= here);
    }
    assert_eq!(met, [true; LIMITS.len()]);
}

#[test]
fn checks_by_hand() {
    for (sheet, yes, no) in checks() {
        let answer = |cells: &&str| check(&sheet.bytes(), &digits(cells));
        yes.iter().for_each(|cells| assert_eq!(answer(cells), Ok(true), "{cells}, {:02x?}", sheet.bytes()));
        no.iter().for_each(|cells| assert_eq!(answer(cells), Ok(false), "{cells}, {:02x?}", sheet.bytes()));
    }
    NO_CELLS.iter().for_each(|cells| assert_eq!(check(&some(130).bytes(), cells), Err(CELLS), "{cells:?}"));
}

#[test]
fn texts_by_hand() {
    for (sheet, text) in texts() {
        assert_eq!(every(&sheet.bytes(), 99), text);
        assert_eq!(instances(&sheet).len(), text.matches("found ").count());
        assert_eq!(finder(&sheet.bytes()), first_case(text));
    }
}

/// In words: the constant's 2; for each of 1,024 cells two clauses of 3; for each mark 2 eight rows of 28 pairs of 3,
/// and of 10; "none" of 64 cells, and the root's 2.
#[test]
fn the_most_cells() {
    for (marked, mark, words) in [(0, 0, 6_406), (10, 2, 13_926), (16, 2, 18_438), (16, 1, 17_158)] {
        let sheet = largest(marked, mark);
        assert_eq!(sheet.cells(), 1_088);
        let size = count(&sheet.bytes()).map(|size| (size.variables, size.words));
        assert_eq!(size, Ok((1 + 1_088 + 1, words)));
        if words > 16_384 {
            assert_eq!(finder(&sheet.bytes()), "refused 13\n");
        }
    }
    assert_eq!(count(&largest(0, 0).bytes()), Ok(Size { variables: 1_090, clauses: 2_115, words: 6_406 }));
}

/// Visits go by the upper number, and so do the rounds of a closure: two of three atoms, three of five.
#[test]
fn by_the_upper_number() {
    let node = |kind, a, b| Node { kind, a, b };
    assert_eq!(visits(&eight_walks(7)), 1 + 8 * 7);
    assert!(read(&eight_walks(124_999).bytes()).is_ok());
    assert_eq!(read(&eight_walks(125_000).bytes()), Err(WALK));
    for scope in 1..=8 {
        let relations = vec![Relation { columns: 2, mark: 0, first: 0, second: 0 }];
        let nodes = vec![node(1, 0, 0), node(11, 0, 0), node(22, 1, 0)];
        let full = Sheet { scopes: vec![scope], variables: vec![], relations, nodes };
        let limited = Sheet { scopes: vec![scope | LIMIT], ..full.clone() };
        let variables = |sheet: &Sheet| translate(sheet).map(|list| list.variables);
        assert_eq!(variables(&limited), variables(&full).map(|v| v + u32::from(scope)));
    }
}

/// Where no mark is 2 and the root reaches no binder, sort or identity, the membership clauses are all that is added.
#[test]
fn nothing_else_is_added() {
    let (mut compared, style) = (0, Style { scope: 3, ..SMALL });
    for case in 0..3_000 {
        let source = &mut Source::new(1, "limits, added", case);
        let mut full = sheet(source, style);
        full.scopes.iter_mut().for_each(|scope| *scope %= LIMIT);
        let mut limited = full.clone();
        limit_some(source, &mut limited);
        let met = of_sheet(&limited);
        if met[6] || met[8..].contains(&true) || read(&full.bytes()).is_err() {
            continue;
        }
        let more = limited.memberships() as i32;
        let moved = |literal: &i32| if literal.abs() == 1 { *literal } else { literal + more * literal.signum() };
        let want: Vec<Vec<i32>> =
            translate(&full).unwrap().clauses.iter().map(|c| c.iter().map(moved).collect()).collect();
        let got = translate(&limited).unwrap().clauses;
        assert_eq!((&got[0], &got[got.len() - (want.len() - 1)..]), (&want[0], &want[1..]), "case {case}");
        compared += 1;
    }
    assert!(compared > 300, "{compared}");
}

/// With all atoms the instances of a limited sheet are those of the sheet without limits.
#[test]
fn with_all_atoms_as_without_limits() {
    let (mut compared, mut met) = (0, [0; MEMBERS.len()]);
    for case in 0..1_000 {
        let source = &mut Source::new(1, "limits, all atoms", case);
        let mut full = sheet(source, SMALL);
        full.scopes.iter_mut().for_each(|scope| *scope %= LIMIT);
        let mut limited = full.clone();
        limit_some(source, &mut limited);
        if limited.cells() > 9 || read(&full.bytes()).is_err() {
            continue;
        }
        let (more, all) = (limited.memberships(), instances(&limited));
        let whole = all.iter().filter(|cells| !cells[..more].contains(&0)).map(|cells| cells[more..].to_vec());
        assert_eq!(whole.collect::<Vec<_>>(), instances(&full), "case {case}: {:02x?}", full.bytes());
        for cells in &all {
            assert!(outside(&limited, cells).iter().all(|&cell| cells[cell] == 0));
            met.iter_mut().zip(of_instance(&limited, cells)).for_each(|(sum, here)| *sum += usize::from(here));
        }
        compared += 1;
    }
    assert!(compared > 500 && met.iter().all(|&times| times > 100), "{compared} {met:?}");
}

/// What is drawn is within the scopes, or has one 1 that is not.
#[test]
fn instances_drawn() {
    let mut met = 0;
    for case in 0..500 {
        let source = &mut Source::new(1, "limits, drawn", case);
        let mut sheet = sheet(source, SMALL);
        limit_some(source, &mut sheet);
        let cells = instance(source, sheet.cells());
        let inside = within(&sheet, cells.clone());
        assert!(outside(&sheet, &inside).iter().all(|&cell| inside[cell] == 0));
        if let Some(other) = one_outside(source, &sheet, cells) {
            let ones = outside(&sheet, &other).iter().filter(|&&cell| other[cell] == 1).count();
            assert_eq!((ones, check(&sheet.bytes(), &other)), (1, Ok(false)));
            met += 1;
        }
    }
    assert!(met > 200, "{met}");
}
