//! The implementation held to itself: by meaning and by clauses, the same instances satisfy.

use crate::brute::{assignments, first_assignments, holds, instances, least};
use crate::clauses::{translate, MET};
use crate::finder::finder;
use crate::limits::{of_instance, of_sheet, LIMITS, MEMBERS};
use crate::random::Source;
use crate::random_sheet::{sheet, Style, SMALL};
use crate::search::{search, settled, End};
use crate::sheet::read;

const SEED: u64 = 1;

/// All satisfying instances are all satisfying assignments cut to the cells, one to one and in order.
#[test]
fn instances_and_assignments_match() {
    let rich = Style { rich: true, ..SMALL };
    let styles = [SMALL, Style { sorts: 1, scope: 3, relations: 1, ..SMALL }, rich, rich];
    let (mut compared, mut kinds, mut satisfiable) = (0, std::collections::BTreeMap::new(), 0);
    let (mut met, mut limits, mut members) = ([0; MET.len()], [0; LIMITS.len()], [0; MEMBERS.len()]);
    for case in 0..3_000 {
        let source = &mut Source::new(SEED, "counts", case);
        let sheet = sheet(source, styles[case as usize % 4]);
        if sheet.cells() > 10 || read(&sheet.bytes()).is_err() {
            continue;
        }
        let Ok(clauses) = translate(&sheet) else { continue };
        let by_meaning = instances(&sheet);
        let satisfying = assignments(clauses.variables, &clauses.clauses);
        let by_clauses: Vec<Vec<u8>> = satisfying.iter().map(|a| a[1..1 + sheet.cells()].to_vec()).collect();
        assert_eq!(by_meaning, by_clauses, "case {case}: {:02x?}", sheet.bytes());
        compared += 1;
        satisfiable += usize::from(!by_meaning.is_empty());
        sheet.nodes.iter().for_each(|node| *kinds.entry(node.kind).or_insert(0) += 1);
        met.iter_mut().zip(clauses.met).for_each(|(sheets, times)| *sheets += usize::from(times > 0));
        limits.iter_mut().zip(of_sheet(&sheet)).for_each(|(sheets, met)| *sheets += usize::from(met));
        for cells in by_meaning {
            members.iter_mut().zip(of_instance(&sheet, &cells)).for_each(|(sum, met)| *sum += usize::from(met));
        }
    }
    println!("{compared} sheets, {satisfiable} satisfiable, kinds {kinds:?}, met {met:?} {limits:?} {members:?}");
    assert!(limits.iter().all(|&sheets| sheets >= 10) && members.iter().all(|&times| times > 200));
    assert!(compared > 2_900 && satisfiable > 1_000 && satisfiable < compared - 300);
    assert!(kinds.len() == 24 && kinds.values().all(|&times| times > 100));
    assert!(met.iter().all(|&sheets| sheets > 100));
}

/// The search finds the first of all satisfying assignments, or none where there is none.
#[test]
fn the_search_agrees_with_all_assignments() {
    let mut ends = [0; 2];
    for case in 0..3_000 {
        let source = &mut Source::new(SEED, "search counts", case);
        let (list, v) = crate::random_list::list(source);
        if v > 12 {
            continue;
        }
        let clauses = crate::search::cut(&list, v).unwrap();
        let all = assignments(v, &clauses);
        let (mut values, mut trail) = (vec![0; v as usize], vec![0; v as usize]);
        let answer = search(&list, v, &mut values, &mut trail, 1_000_000).unwrap();
        match answer.end {
            End::Found => assert_eq!(Some(&settled(&values)), all.first(), "case {case}"),
            End::None => assert!(all.is_empty(), "case {case}"),
            End::Spent => panic!("case {case} is spent"),
        }
        assert!(all.iter().all(|values| clauses.iter().all(|clause| holds(clause, values))));
        assert_eq!(first_assignments(v, &clauses, 2), all[..all.len().min(2)], "case {case}");
        ends[usize::from(all.is_empty())] += 1;
    }
    assert!(ends[0] > 500 && ends[1] > 500, "{ends:?}");
}

/// What the finder prints is the first satisfying instance, in ascending order.
#[test]
fn the_finder_prints_the_first_instance() {
    for case in 0..500 {
        let source = &mut Source::new(SEED, "finder counts", case);
        let sheet = sheet(source, SMALL);
        if sheet.cells() > 9 || read(&sheet.bytes()).is_err() {
            continue;
        }
        let printed = finder(&sheet.bytes());
        let (head, lines) = printed.split_once('\n').unwrap();
        match least(&sheet) {
            _ if head == "refused 13" => {}
            Some(first) => assert!(head.starts_with("found ") && lines == crate::finder::lines(&sheet, &first)),
            None => assert!(head.starts_with("none ") && lines.is_empty()),
        }
    }
}
