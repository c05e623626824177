//! Sheets as they are written by hand, at a scope that is asked for: lists of some thousand words, most with long searches.

use crate::sheet::{Node, Relation, Sheet};

/// A sheet over one sort, whose variables 0, 1 and 2 stand for x, y and z.
struct Draft(Sheet);

impl Draft {
    /// Relations with their columns and marks.
    fn new(scope: u8, relations: &[(u8, u8)]) -> Draft {
        let relation = |&(columns, mark): &(u8, u8)| Relation { columns, mark, first: 0, second: 0 };
        let relations = relations.iter().map(relation).collect();
        Draft(Sheet { scopes: vec![scope], variables: vec![0; 3], relations, nodes: Vec::new() })
    }

    fn push(&mut self, kind: u8, a: u8, b: u8) -> u8 {
        self.0.nodes.push(Node { kind, a, b });
        self.0.nodes.len() as u8 - 1
    }

    fn relation(&mut self, number: u8) -> u8 {
        self.push(1, number, 0)
    }

    /// The pair of two variables is in a relation.
    fn pair(&mut self, from: u8, relation: u8, to: u8) -> u8 {
        let (from, relation) = (self.push(2, from, 0), self.relation(relation));
        let (after, to) = (self.push(8, from, relation), self.push(2, to, 0));
        self.push(21, to, after)
    }

    /// For all of these variables.
    fn all(&mut self, variables: &[u8], formula: u8) -> u8 {
        variables.iter().rev().fold(formula, |formula, &variable| self.push(40, variable, formula))
    }

    fn transitive(&mut self, relation: u8) -> u8 {
        let (xy, yz) = (self.pair(0, relation, 1), self.pair(1, relation, 2));
        let (both, xz) = (self.push(31, xy, yz), self.pair(0, relation, 2));
        let implied = self.push(33, both, xz);
        self.all(&[0, 1, 2], implied)
    }

    fn irreflexive(&mut self, relation: u8) -> u8 {
        let xx = self.pair(0, relation, 0);
        let not = self.push(30, xx, 0);
        self.all(&[0], not)
    }

    fn total(&mut self, relation: u8) -> u8 {
        let (xy, yx) = (self.pair(0, relation, 1), self.pair(1, relation, 0));
        let (x, y) = (self.push(2, 0, 0), self.push(2, 1, 0));
        let (same, either) = (self.push(20, x, y), self.push(32, xy, yx));
        let one = self.push(32, either, same);
        self.all(&[0, 1], one)
    }

    /// Between any two of which the one is before the other there is a third.
    fn dense(&mut self, relation: u8) -> u8 {
        let (xz, zy) = (self.pair(0, relation, 2), self.pair(2, relation, 1));
        let both = self.push(31, xz, zy);
        let (some, xy) = (self.push(41, 2, both), self.pair(0, relation, 1));
        let implied = self.push(33, xy, some);
        self.all(&[0, 1], implied)
    }

    fn without_end(&mut self, relation: u8) -> u8 {
        let xy = self.pair(0, relation, 1);
        let some = self.push(41, 1, xy);
        self.all(&[0], some)
    }

    /// A total order by joins: what comes after what comes after, and no pair of one element.
    fn order(&mut self, relation: u8) -> [u8; 3] {
        let order = self.relation(relation);
        let twice = self.push(8, order, order);
        let within = self.push(21, twice, order);
        let identity = self.push(4, 0, 0);
        let own = self.push(6, order, identity);
        [within, self.push(23, own, 0), self.total(relation)]
    }

    /// All of these formulas, and the sheet is whole.
    fn sheet(mut self, formulas: &[u8]) -> Sheet {
        formulas.iter().copied().reduce(|all, one| self.push(31, all, one));
        self.0
    }
}

/// Nested quantifiers: a total order that is dense and has no end. There is none.
pub fn nested(scope: u8) -> Sheet {
    let mut draft = Draft::new(scope, &[(2, 0)]);
    let order = [draft.transitive(0), draft.irreflexive(0), draft.total(0)];
    let others = [draft.dense(0), draft.without_end(0)];
    draft.sheet(&[&order[..], &others].concat())
}

/// What two orders have to do with each other.
#[derive(Clone, Copy)]
pub enum Orders {
    /// A pair of the one is the other way round in the other: found soon.
    Crossed,
    /// The one is the other the other way round: found soon, but at an odd scope there is none.
    Turned,
    /// They are the same: there is none.
    Same,
}

/// Two total orders, and a map from the one to the other that keeps no element.
pub fn orders(scope: u8, orders: Orders) -> Sheet {
    let mut draft = Draft::new(scope, &[(2, 0), (2, 0), (2, 2)]);
    let mut formulas = [draft.order(0), draft.order(1)].concat();
    let (first, second, map) = (draft.relation(0), draft.relation(1), draft.relation(2));
    let (before, after) = (draft.push(8, first, map), draft.push(8, map, second));
    formulas.push(draft.push(20, before, after));
    let inverse = draft.push(10, second, 0);
    formulas.push(match orders {
        Orders::Crossed => {
            let common = draft.push(6, first, inverse);
            draft.push(22, common, 0)
        }
        Orders::Turned => draft.push(20, first, inverse),
        Orders::Same => draft.push(20, first, second),
    });
    let identity = draft.push(4, 0, 0);
    let kept = draft.push(6, map, identity);
    formulas.push(draft.push(23, kept, 0));
    draft.sheet(&formulas)
}

/// States, one to start with and at most one after each. The good ones have only good ones after them, and yet a bad one is
/// reached; with `back` all states are reached from a bad one too. There is none.
pub fn transition(scope: u8, back: bool) -> Sheet {
    let mut draft = Draft::new(scope, &[(1, 2), (2, 1), (1, 0), (1, 0)]);
    let (start, step, good, bad) = (draft.relation(0), draft.relation(1), draft.relation(2), draft.relation(3));
    let closure = draft.push(11, step, 0);
    let later = draft.push(8, start, closure);
    let reached = draft.push(5, later, start);
    let (hit, both) = (draft.push(6, reached, bad), draft.push(6, good, bad));
    let (some, apart) = (draft.push(22, hit, 0), draft.push(23, both, 0));
    let (begun, after) = (draft.push(21, start, good), draft.push(8, good, step));
    let mut formulas = vec![apart, begun, draft.push(21, after, good)];
    if back {
        let (from_bad, all) = (draft.push(8, bad, closure), draft.push(3, 0, 0));
        formulas.push(draft.push(21, all, from_bad));
    }
    formulas.push(some);
    draft.sheet(&formulas)
}

#[test]
fn by_brute_force_at_scope_2() {
    use crate::brute::least;
    let none = [nested(2), orders(2, Orders::Same), transition(2, false), transition(2, true)];
    assert!(none.iter().all(|sheet| crate::sheet::read(&sheet.bytes()).is_ok() && least(sheet).is_none()));
    assert!([Orders::Crossed, Orders::Turned].iter().all(|&which| least(&orders(2, which)).is_some()));
}
