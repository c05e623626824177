//! Reading, counting, writing and the check by the library alone, so that two versions of it can be set side by side (`bench/before`).
//! No sheet here has a limited sort: versions before Change 8 take them all.

use crate::steps::repeated;
use crate::worked::examples;
use crate::{sheets, SEED};
use reference::idle_walks;
use reference::large_sheets::{nested, orders, transition, Orders};
use reference::random::Source;
use reference::random_sheet::instance;
use reference::sheet::{read, Node, Relation, Sheet};
use std::hint::black_box;

/// Sixteen relations over two sorts of eight atoms: as many cells as there can be without limited sorts.
fn many_cells() -> Sheet {
    let relation = |r: u8| Relation { columns: 2, mark: r % 3, first: r % 2, second: 1 };
    let nodes = vec![Node { kind: 1, a: 0, b: 0 }, Node { kind: 22, a: 0, b: 0 }];
    Sheet { scopes: vec![8, 8], variables: vec![], relations: (0..16).map(relation).collect(), nodes }
}

/// Sheets, each with an instance, under a name.
fn groups() -> Vec<(String, Vec<(Vec<u8>, Vec<u8>)>)> {
    let source = &mut Source::new(SEED, "bench, calls", 0);
    let mut drawn = |sheet: &Sheet| (sheet.bytes(), instance(source, sheet.cells()));
    let mut groups = Vec::new();
    for (name, sheet) in examples() {
        groups.push((name, vec![drawn(&sheet)]));
    }
    let random = sheets(300).iter().map(|(bytes, _)| drawn(&read(bytes).expect("an accepted sheet"))).collect();
    groups.push(("300 random sheets".to_string(), random));
    let mut push = |name: &str, sheet: Sheet| groups.push((name.to_string(), vec![drawn(&sheet)]));
    push("nested quantifiers", nested(4));
    push("orders", orders(4, Orders::Crossed));
    push("transitions", transition(4, false));
    push("many cells", many_cells());
    for (name, sheet) in idle_walks::sheets(20, 10_000) {
        push(name, sheet);
    }
    groups
}

/// The time of one call over all of a group, in ns.
fn timed(group: &[(Vec<u8>, Vec<u8>)], mut call: impl FnMut(&[u8], &[u8])) -> f64 {
    repeated(|| group.iter().for_each(|(sheet, instance)| call(sheet, instance)))
}

/// A line for each group: the time of each call over all of it.
pub fn each() {
    let mut list = vec![0; 1 << 18];
    for (name, group) in groups() {
        let read = timed(&group, |sheet, _| assert!(black_box(library::read(sheet)).is_ok()));
        let count = timed(&group, |sheet, _| assert!(black_box(library::count(sheet)).is_ok()));
        let write = timed(&group, |sheet, _| assert!(black_box(library::write(sheet, &mut list)).is_ok()));
        let check = timed(&group, |sheet, instance| assert!(black_box(library::check(sheet, instance)).is_ok()));
        println!("calls: {name}, read {read:.1} ns, count {count:.1} ns, write {write:.1} ns, check {check:.1} ns");
    }
}
