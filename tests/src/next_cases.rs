//! Change 6 of document 02 by hand: K1's three cases and the end, lists with none and with one, small budgets on full
//! assignments, calls after "none", the latest choice of a state that no search leaves, read-back of a 3.

use crate::brute::assignments;
use crate::every::every;
use crate::finder::{finder, read_back};
use crate::next::next;
use crate::random::Source;
use crate::random_list::list;
use crate::resume::{resume, Position};
use crate::search::{cut, search, settled, Answer, End, State, Steps};
use crate::sheet::{CELLS, LIST, SHORT, STATE};

const K1: &[i32] = &[1, 1, 2, 4, -2, 2, 4, -3, 3, -4, 2, 3, 1, 4];
const K1_SHEET: &[u8] = &[1, 0, 1, 2, 0, 0, 0, 4, 1, 0, 0, 0, 0, 6, 1, 0, 0, 22, 0, 0];
const K3: &[i32] = &[1, 1, 2, -2, -3, 2, 2, 3, 2, 4, -2, 2, 4, -3, 3, -4, 2, 3, 1, -4];

/// A length, and forces, choices and turns.
const fn at(length: usize, forces: u64, choices: u64, turns: u64) -> Position {
    Position { length, steps: Steps::new(forces, choices, turns) }
}

/// Slices of v bytes and words, and a record.
#[derive(Clone, Debug, PartialEq)]
struct Lent {
    values: Vec<u8>,
    trail: Vec<i32>,
    position: Position,
}

impl Lent {
    fn fresh(v: usize) -> Lent {
        Lent { values: vec![2; v], trail: vec![0; v], position: at(0, 0, 0, 0) }
    }

    /// A call whose answer has the record's counters: its end.
    fn next(&mut self, list: &[i32], budget: u64) -> End {
        let v = self.values.len() as u32;
        let answer = next(list, v, &mut self.values, &mut self.trail, &mut self.position, budget).unwrap();
        assert_eq!(answer.steps, self.position.steps);
        answer.end
    }

    fn is(&self, values: &[u8], trail: &[i32], position: Position) -> bool {
        (self.values.as_slice(), self.trail.as_slice(), self.position) == (values, trail, position)
    }
}

#[test]
fn k1_case_by_case() {
    let mut lent = Lent::fresh(4);
    assert_eq!(lent.next(K1, 9), End::Found);
    assert!(lent.is(&[1, 3, 1, 1], &[1, 4, -2, 3], at(4, 3, 1, 0)));
    // the choice is turned, then -3 is chosen
    assert_eq!(lent.next(K1, 9), End::Found);
    assert!(lent.is(&[1, 1, 3, 1], &[1, 4, 2, -3], at(4, 3, 2, 1)));
    // the turn alone is a full assignment, and is found
    assert_eq!(lent.next(K1, 9), End::Found);
    assert!(lent.is(&[1, 1, 1, 1], &[1, 4, 2, 3], at(4, 3, 2, 2)));
    assert_eq!(lent.next(K1, 9), End::None);
    assert!(lent.is(&[2; 4], &[0; 4], at(0, 3, 2, 2)));
    // and from the start, with counters that go on
    assert_eq!(lent.next(K1, 9), End::Found);
    assert!(lent.is(&[1, 3, 1, 1], &[1, 4, -2, 3], at(4, 6, 3, 2)));
}

#[test]
fn k1_printed() {
    let printed = "found 4\nr0 01\nfound 6\nr0 10\nfound 7\nr0 11\nnone 7\n";
    assert_eq!(every(K1_SHEET, usize::MAX), printed);
    assert_eq!(every(K1_SHEET, 1), finder(K1_SHEET));
    assert_eq!(every(K1_SHEET, 3), "found 4\nr0 01\nfound 6\nr0 10\nfound 7\nr0 11\n");
    assert_eq!((every(&[], 9), every(&[1; 4_097], 9)), ("refused 1\n".to_string(), "refused 2\n".to_string()));
}

#[test]
fn small_budgets_with_a_choice_left() {
    let mut lent = Lent::fresh(4);
    lent.next(K1, 4);
    let found = lent.clone();
    assert_eq!((lent.next(K1, 0), &lent), (End::Spent, &found));
    assert_eq!(lent.next(K1, 1), End::Spent);
    assert!(lent.is(&[1, 1, 2, 1], &[1, 4, 2, 0], at(3, 3, 1, 1)));
    // from here on it is a resumed call
    assert_eq!(lent.next(K1, 1), End::Found);
    assert!(lent.is(&[1, 1, 3, 1], &[1, 4, 2, -3], at(4, 3, 2, 1)));
    assert_eq!(lent.next(K1, 1), End::Found);
    assert!(lent.is(&[1, 1, 1, 1], &[1, 4, 2, 3], at(4, 3, 2, 2)));
}

#[test]
fn small_budgets_without_a_choice() {
    for budget in [0, 1, 9] {
        let mut lent = Lent { values: vec![1, 0], trail: vec![-2, 1], position: at(2, 5, 6, 7) };
        assert_eq!(lent.next(&[2, 1, 2], budget), End::None);
        assert!(lent.is(&[2; 2], &[0; 2], at(0, 5, 6, 7)));
    }
}

/// (1) (2) has one, found by forces; K3 has none, and each call looks for it anew.
#[test]
fn one_and_none() {
    let mut one = Lent::fresh(2);
    assert_eq!((one.next(&[1, 1, 1, 2], 9), one.next(&[1, 1, 1, 2], 0)), (End::Found, End::None));
    assert!(one.is(&[2; 2], &[0; 2], at(0, 2, 0, 0)));
    let mut none = Lent::fresh(4);
    for forces in [4, 8, 12] {
        assert_eq!(none.next(K3, 4), End::None);
        assert!(none.is(&[2; 4], &[0; 4], at(0, forces, 0, 0)));
    }
}

/// (-1 2) (-1 -2): 00 and 01 by two choices and a turn; then the other choice is turned, 2 is forced, and that clashes.
#[test]
fn a_clash_of_the_list_after_one_of_its_own() {
    let list = &[2, -1, 2, 2, -1, -2];
    let mut lent = Lent::fresh(2);
    assert_eq!(lent.next(list, 9), End::Found);
    assert!(lent.is(&[3, 3], &[-1, -2], at(2, 0, 2, 0)));
    assert_eq!(lent.next(list, 9), End::Found);
    assert!(lent.is(&[3, 1], &[-1, 2], at(2, 0, 2, 1)));
    let mut spent = lent.clone();
    assert_eq!(lent.next(list, 9), End::None);
    assert!(lent.is(&[2, 2], &[0, 0], at(0, 1, 2, 2)));
    assert_eq!(spent.next(list, 1), End::Spent);
    assert!(spent.is(&[1, 2], &[1, 0], at(1, 0, 2, 2)));
    assert_eq!(spent.next(list, 1), End::None);
    assert_eq!(spent, lent);
}

/// The latest choice is the last of the trail, whatever its number; what was set after it is opened.
#[test]
fn the_latest_choice() {
    let state = |values: &[u8], trail: &[i32]| Lent {
        values: values.to_vec(),
        trail: trail.to_vec(),
        position: at(trail.len(), 0, 0, 0),
    };
    let mut lent = state(&[3, 3, 1], &[-2, -1, 3]);
    assert_eq!(lent.next(&[], 1), End::Spent);
    assert!(lent.is(&[1, 3, 2], &[-2, 1, 0], at(2, 0, 0, 1)));
    let mut lent = state(&[0, 3, 0], &[-3, -2, -1]);
    assert_eq!(lent.next(&[], 9), End::Found);
    assert!(lent.is(&[3, 1, 0], &[-3, 2, -1], at(3, 0, 1, 1)));
}

/// On a false clause or an open variable it is the resumed call; on a full assignment that call finds it once more.
#[test]
fn as_the_resumed_call() {
    let (mut values, mut trail, mut position) = ([3, 0], [-1, -2], at(2, 0, 0, 0));
    let answer = next(&[2, 1, 2], 2, &mut values, &mut trail, &mut position, 1).unwrap();
    assert_eq!(answer, Answer { end: End::Spent, steps: Steps::new(0, 0, 1) });
    assert_eq!((values, trail, position), ([1, 2], [1, 0], at(1, 0, 0, 1)));
    let answer = next(&[2, 1, 2], 2, &mut values, &mut trail, &mut position, 9).unwrap();
    assert_eq!((answer.end, values, trail), (End::Found, [1, 3], [1, -2]));
    let left = (values, trail, position);
    let again = resume(&[2, 1, 2], 2, &mut values, &mut trail, &mut position, 9).unwrap();
    assert_eq!((again, (values, trail, position)), (answer, left));
}

/// Number 12 keeps a v of 0 out; without a variable every variable is set, and no choice is left.
#[test]
fn no_variable() {
    assert_eq!(next(&[], 0, &mut [], &mut [], &mut at(0, 0, 0, 0), 9), Err(LIST));
    for budget in [0, 1, 9] {
        let mut state = State::all_open(0);
        assert_eq!(state.next(&[], budget), (End::None, Steps::default()));
    }
}

#[test]
fn the_numbers_of_the_resumed_call() {
    let refused = |list: &[i32], values: &mut [u8], trail: &mut [i32], budget| {
        let (mut position, before) = (at(2, 0, u64::MAX, 0), (values.to_vec(), trail.to_vec()));
        let number = next(list, 2, values, trail, &mut position, budget);
        assert_eq!((values.to_vec(), trail.to_vec(), position), (before.0, before.1, at(2, 0, u64::MAX, 0)));
        number.unwrap_err()
    };
    assert_eq!(refused(&[1, 3], &mut [3], &mut [-1, -2], 1), LIST);
    assert_eq!(refused(&[1, -1], &mut [3], &mut [-1, -2], 1), SHORT);
    assert_eq!(refused(&[1, -1], &mut [3, 3], &mut [-1], 1), SHORT);
    assert_eq!(refused(&[1, -1], &mut [3, 3], &mut [-1, -2], 1), STATE);
    assert_eq!(refused(&[1, -1], &mut [3, 2], &mut [-1, -2], 0), STATE);
}

#[test]
fn a_3_is_read_back_as_0() {
    let back = |values: &[u8]| {
        let mut instance = [9; 3];
        (read_back(K1_SHEET, values, &mut instance), instance)
    };
    assert_eq!(back(&[1, 3, 1, 1]), (Ok(2), [0, 1, 9]));
    assert_eq!(back(&[3, 1, 3, 9]), (Ok(2), [1, 0, 9]));
    for byte in [2, 4, 5, 128, 255] {
        assert_eq!((back(&[1, byte, 3, 1]), back(&[1, 3, byte, 1])), ((Err(CELLS), [9; 3]), (Err(CELLS), [9; 3])));
        assert_eq!(back(&[byte, 3, 1, byte]), (Ok(2), [0, 1, 9]));
    }
}

/// From what `search` left, calls for the next give all satisfying assignments in order, then "none".
#[test]
fn all_assignments() {
    let mut several = 0;
    for case in 0..600 {
        let source = &mut Source::new(1, "next cases", case);
        let (list, v) = list(source);
        if v > 10 {
            continue;
        }
        let mut lent = Lent::fresh(v as usize);
        let first = search(&list, v, &mut lent.values, &mut lent.trail, u64::MAX).unwrap();
        lent.position = Position { length: if first.end == End::Found { v as usize } else { 0 }, steps: first.steps };
        let (mut end, mut found) = (first.end, Vec::new());
        while end == End::Found {
            found.push(settled(&lent.values));
            end = lent.next(&list, 1_000_000);
        }
        assert_eq!((end, &found), (End::None, &assignments(v, &cut(&list, v).unwrap())), "case {case}");
        several += usize::from(found.len() > 3);
    }
    assert!(several > 100, "{several}");
}
