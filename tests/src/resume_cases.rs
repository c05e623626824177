//! Changes 1 and 3 of document 02 by hand: K1 and a list with steps of each kind in slices, the conditions of 14 one by one, that
//! for the steps with the three counters, and a "none" that is none of the list's.

use crate::finder::finder_on;
use crate::long_search::{long, of_15_625};
use crate::resume::{faults, resume, Fault, Position};
use crate::search::{Answer, End, Steps};
use crate::sheet::{LIST, SHORT, STATE};

/// The list of K1, found after 3 forces and a choice, the third step, with the values 1, 3, 1, 1 and the trail 1, 4, -2, 3.
const K1: &[i32] = &[1, 1, 2, 4, -2, 2, 4, -3, 3, -4, 2, 3, 1, 4];
/// That of K3, none after 4 forces.
const K3: &[i32] = &[1, 1, 2, -2, -3, 2, 2, 3, 2, 4, -2, 2, 4, -3, 3, -4, 2, 3, 1, -4];

/// (1 2) (1 -2): -1 is chosen, 2 forced, the choice turned, -2 chosen.
const EACH_KIND: &[i32] = &[2, 1, 2, 2, 1, -2];

const MOST: u64 = u64::MAX;
const HALF: u64 = 1 << 63;

/// A length, and forces, choices and turns.
const fn at(length: usize, forces: u64, choices: u64, turns: u64) -> Position {
    Position { length, steps: Steps::new(forces, choices, turns) }
}

#[test]
fn k1_in_slices() {
    // from the start, and from counters that go on
    for (f, c, t) in [(0, 0, 0), (50, 700, 9_000)] {
        let (mut values, mut trail, mut position) = ([2, 2, 2, 2, 9], [0, 0, 0, 0, 9], at(0, f, c, t));
        let mut go = |budget| {
            let answer = resume(K1, 4, &mut values, &mut trail, &mut position, budget).unwrap();
            assert_eq!(answer.steps, position.steps);
            (answer.end, values, trail, position)
        };
        assert_eq!(go(0), (End::Spent, [2, 2, 2, 2, 9], [0, 0, 0, 0, 9], at(0, f, c, t)));
        assert_eq!(go(2), (End::Spent, [1, 2, 2, 1, 9], [1, 4, 0, 0, 9], at(2, f + 2, c, t)));
        assert_eq!(go(1), (End::Spent, [1, 3, 2, 1, 9], [1, 4, -2, 0, 9], at(3, f + 2, c + 1, t)));
        let found = (End::Found, [1, 3, 1, 1, 9], [1, 4, -2, 3, 9], at(4, f + 3, c + 1, t));
        assert_eq!(go(5), found);
        // an end is found at once, and nothing is counted
        assert_eq!((go(0), go(9)), (found, found));
    }
}

/// A counter is moved by the steps of its kind alone, from counters that are 0 and near the limit.
#[test]
fn each_kind_by_itself() {
    for (f, c, t) in [(0, 0, 0), (10, 200, 3_000), (MOST - 4, 0, 0), (0, MOST - 4, 0), (0, 0, MOST - 4), (5, HALF, 6)] {
        let (mut values, mut trail, mut position) = ([2; 2], [0; 2], at(0, f, c, t));
        let mut go = |budget| {
            let answer = resume(EACH_KIND, 2, &mut values, &mut trail, &mut position, budget).unwrap();
            assert_eq!(answer.steps, position.steps);
            (answer.end, position)
        };
        assert_eq!(go(1), (End::Spent, at(1, f, c + 1, t)));
        assert_eq!(go(1), (End::Spent, at(2, f + 1, c + 1, t)));
        assert_eq!(go(1), (End::Spent, at(1, f + 1, c + 1, t + 1)));
        assert_eq!(go(1), (End::Found, at(2, f + 1, c + 2, t + 1)));
    }
}

#[test]
fn after_none_it_starts_anew() {
    let (mut values, mut trail, mut position) = ([2; 4], [0; 4], at(0, 0, 7, 8));
    for forces in [4, 8] {
        let answer = resume(K3, 4, &mut values, &mut trail, &mut position, 4);
        assert_eq!(answer, Ok(Answer { end: End::None, steps: Steps::new(forces, 7, 8) }));
        assert_eq!((values, trail, position), ([2; 4], [0; 4], at(0, forces, 7, 8)));
    }
}

#[test]
fn each_condition_alone() {
    let of = |values: &[u8], trail: &[i32], length| faults(values, trail, &at(length, 0, 0, 0), 0);
    assert_eq!(of(&[1, 3, 0], &[1, -2, -3], 3), []);
    assert_eq!(of(&[1, 3, 0], &[1, -2, -3], 4), [Fault::Length]);
    for word in [0, 4, -4, i32::MIN] {
        assert_eq!(of(&[1, 2, 2], &[1, word, 0], 2), [Fault::Range]);
    }
    assert_eq!(of(&[1, 2, 2], &[1, 1, 0], 2), [Fault::Repeated]);
    assert_eq!(of(&[1, 2, 2], &[1, -1, 0], 2), [Fault::Contradicts]);
    for (word, right) in [(1, &[1][..]), (-1, &[0, 3])] {
        for value in [0, 1, 2, 3, 4, 255] {
            let want: &[Fault] = if right.contains(&value) { &[] } else { &[Fault::Contradicts] };
            assert_eq!(of(&[value, 2, 2], &[word, 0, 0], 1), want);
        }
    }
    for value in [0, 1, 3, 4, 255] {
        assert_eq!(of(&[1, 2, value], &[1, 0, 0], 1), [Fault::Byte]);
    }
    assert_eq!(of(&[1, 2, 2], &[1, 0, -3], 1), [Fault::Word]);
    // as many bytes are set as the trail is long
    assert_eq!(of(&[1, 1, 2], &[1, 1, 0], 2), [Fault::Repeated, Fault::Byte]);
}

/// Whether 14 lets three counters pass, in each of their orders, with a budget.
fn passes((x, y, z): (u64, u64, u64), budget: u64) -> bool {
    let orders = [(x, y, z), (x, z, y), (y, x, z), (y, z, x), (z, x, y), (z, y, x)];
    let met = orders.map(|(forces, choices, turns)| faults(&[2], &[0], &at(0, forces, choices, turns), budget));
    assert!(met.iter().all(|faults| *faults == met[0]), "{x} {y} {z}: {met:?}");
    assert!(met[0].is_empty() || met[0] == [Fault::Steps]);
    met[0].is_empty()
}

#[test]
fn the_three_counters_together() {
    // 2^64 - 1 in one counter, in two, in three; and one less
    for three in [(MOST, 0, 0), (HALF, HALF - 1, 0), (MOST - 1, 1, 0), (MOST - 2, 1, 1), (HALF - 1, HALF - 1, 1)] {
        assert!(passes(three, 0) && !passes(three, 1) && !passes(three, MOST));
        let less = (three.0 - 1, three.1, three.2);
        assert!(passes(less, 0) && passes(less, 1) && !passes(less, 2));
    }
    // with a budget of some, of all but one and of all
    assert!(passes((MOST - 3, 0, 0), 3) && !passes((MOST - 3, 0, 0), 4));
    assert!(passes((1, MOST - 7, 3), 3) && !passes((1, MOST - 7, 3), 4));
    assert!(passes((0, 0, 0), MOST) && passes((1, 0, 0), MOST - 1) && !passes((1, 0, 0), MOST));
    assert!(passes((1, 1, 1), MOST - 3) && !passes((1, 1, 1), MOST - 2));
    // the three alone are too many, though in 64 bits they come to 0, to little, to 2^63, to 2^64 - 3 and to 2^64 - 2
    let zero = [(MOST, 1, 0), (HALF, HALF, 0), (MOST - 1, 1, 1), (MOST, MOST, 2)];
    let others = [(HALF, HALF, 5), (MOST, 4, 4), (HALF, HALF, HALF), (MOST, MOST, MOST), (MOST, MOST, 0)];
    for three in zero.into_iter().chain(others) {
        assert!(!passes(three, 0) && !passes(three, 1) && !passes(three, MOST));
    }
}

/// A call that 14 declines for the counters changes none of them; one step more is allowed where it fits.
#[test]
fn at_the_limit() {
    let go = |mut position: Position, budget| {
        (resume(EACH_KIND, 2, &mut [2; 2], &mut [0; 2], &mut position, budget), position)
    };
    let full = at(0, MOST - 30, 10, 20);
    assert_eq!(go(full, 0), (Ok(Answer { end: End::Spent, steps: full.steps }), full));
    assert_eq!(go(full, 1), (Err(STATE), full));
    let chosen = at(1, HALF, HALF - 2, 1);
    let less = at(0, HALF, HALF - 3, 1);
    assert_eq!(go(less, 1), (Ok(Answer { end: End::Spent, steps: chosen.steps }), chosen));
    assert_eq!(go(less, 2), (Err(STATE), less));
    let wraps = at(0, HALF, HALF, HALF);
    assert_eq!((go(wraps, 0), go(wraps, 1)), ((Err(STATE), wraps), (Err(STATE), wraps)));
}

#[test]
fn in_the_order_of_the_numbers() {
    let refused = |list: &[i32], values: &mut [u8], trail: &mut [i32]| {
        let mut position = at(9, 7, 5, 3);
        let before = (values.to_vec(), trail.to_vec());
        let number = resume(list, 2, values, trail, &mut position, 1);
        assert_eq!((values.to_vec(), trail.to_vec(), position), (before.0, before.1, at(9, 7, 5, 3)));
        number.unwrap_err()
    };
    assert_eq!(refused(&[1, 3], &mut [7], &mut [7; 2]), LIST);
    assert_eq!(refused(&[1, 1], &mut [7], &mut [7; 2]), SHORT);
    assert_eq!(refused(&[1, 1], &mut [7; 2], &mut [7]), SHORT);
    assert_eq!(refused(&[1, 1], &mut [7; 2], &mut [7; 2]), STATE);
}

/// From a state that no search leaves, only the step rules hold: no choice is there to turn, and yet (1 2) is satisfiable.
#[test]
fn a_none_from_a_state_not_reached() {
    let (mut values, mut trail, mut position) = ([0, 0], [-1, -2], at(2, 0, 0, 0));
    let answer = resume(&[2, 1, 2], 2, &mut values, &mut trail, &mut position, 9);
    assert_eq!(answer, Ok(Answer { end: End::None, steps: Steps::default() }));
}

#[test]
fn long_searches() {
    let steps = |ahead: &[(u8, u8)], forced| finder_on(&long(ahead, forced, false).bytes());
    let none = |steps: u64| format!("none {steps}\n");
    let t = 20;
    for n in 1..=8 {
        let wide = u64::from(n);
        let pairs = wide * (wide - 1) / 2;
        assert_eq!(steps(&[(n, 0), (1, 0)], 0), none(t << n));
        assert_eq!(steps(&[(n, 1), (1, 0)], 0), none((wide + 1) * t + pairs));
        assert_eq!(steps(&[(n, 2), (1, 0)], 0), none(wide * t + pairs + 1));
        assert_eq!(steps(&[(1, 0)], n), none(t + wide));
    }
    assert_eq!(finder_on(&of_15_625(1, 1).bytes()), none(31_251));
    assert_eq!(finder_on(&long(&[(8, 0)], 0, true).bytes()), "found 2576\nr0 1\nr1 00000000\nr2 01\n");
}
