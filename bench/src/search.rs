//! The search in Rust, by the algorithm of the library: one scan of the list for each step, which leaves
//! a clause at a true literal, or as soon as it can be neither a clash nor the first to force.

use reference::search::{Answer, End, Steps};

const OPEN: u8 = 2;
const CHOSEN: u8 = 3;

/// What a scan of the list meets.
enum Scan {
    Clash,
    Force(i32),
    Nothing,
}

/// 1 true, 0 false, 2 open.
fn truth(values: &[u8], literal: i32) -> u8 {
    let value = values[literal.unsigned_abs() as usize - 1];
    match value {
        OPEN => OPEN,
        1 => u8::from(literal > 0),
        _ => u8::from(literal < 0),
    }
}

fn scan(list: &[i32], values: &[u8]) -> Scan {
    let mut forced = 0;
    let mut at = 0;
    'clauses: while at < list.len() {
        let end = at + 1 + list[at] as usize;
        let clause = &list[at + 1..end];
        at = end;
        let mut open = 0;
        for &literal in clause {
            match truth(values, literal) {
                1 => continue 'clauses,
                OPEN if forced != 0 || (open != 0 && open != literal) => continue 'clauses,
                OPEN => open = literal,
                _ => {}
            }
        }
        if open == 0 {
            return Scan::Clash;
        }
        forced = open;
    }
    if forced != 0 {
        Scan::Force(forced)
    } else {
        Scan::Nothing
    }
}

/// Opens all back to the latest choice, which becomes true; the new length, or none without a choice.
fn turn(values: &mut [u8], trail: &mut [i32], mut length: usize) -> Option<usize> {
    while length > 0 {
        let literal = trail[length - 1];
        let variable = literal.unsigned_abs() as usize - 1;
        if values[variable] == CHOSEN {
            values[variable] = 1;
            trail[length - 1] = -literal;
            return Some(length);
        }
        values[variable] = OPEN;
        trail[length - 1] = 0;
        length -= 1;
    }
    None
}

/// Where a search stands: the trail's length, and the steps done.
#[derive(Clone, Copy, Default)]
pub struct Standing {
    pub length: usize,
    pub steps: Steps,
}

/// The search over a good list, with slices of v values and v words.
pub fn search(list: &[i32], values: &mut [u8], trail: &mut [i32], budget: u64) -> Answer {
    values.fill(OPEN);
    trail.fill(0);
    go_on(list, values, trail, &mut Standing::default(), budget)
}

/// The call for the next: a full assignment that it starts on is a clash.
pub fn next(list: &[i32], values: &mut [u8], trail: &mut [i32], at: &mut Standing, budget: u64) -> Answer {
    let full = matches!(scan(list, values), Scan::Nothing) && at.length == values.len();
    if !full {
        return go_on(list, values, trail, at, budget);
    }
    if !values.contains(&CHOSEN) {
        return open_all(values, trail, at);
    }
    if budget == 0 {
        return Answer { end: End::Spent, steps: at.steps };
    }
    at.length = turn(values, trail, at.length).unwrap_or(0);
    at.steps.turns += 1;
    go_on(list, values, trail, at, budget - 1)
}

fn open_all(values: &mut [u8], trail: &mut [i32], at: &mut Standing) -> Answer {
    values.fill(OPEN);
    trail.fill(0);
    at.length = 0;
    Answer { end: End::None, steps: at.steps }
}

/// The run from where it stands.
fn go_on(list: &[i32], values: &mut [u8], trail: &mut [i32], at: &mut Standing, budget: u64) -> Answer {
    let mut left = budget;
    loop {
        let met = scan(list, values);
        match met {
            Scan::Nothing if at.length == values.len() => return Answer { end: End::Found, steps: at.steps },
            Scan::Clash if !values.contains(&CHOSEN) => return open_all(values, trail, at),
            _ if left == 0 => return Answer { end: End::Spent, steps: at.steps },
            Scan::Clash => {
                at.length = turn(values, trail, at.length).unwrap_or(0);
                at.steps.turns += 1;
            }
            Scan::Force(literal) => {
                values[literal.unsigned_abs() as usize - 1] = u8::from(literal > 0);
                trail[at.length] = literal;
                at.length += 1;
                at.steps.forces += 1;
            }
            Scan::Nothing => {
                let variable = values.iter().position(|&value| value == OPEN).unwrap_or(0);
                values[variable] = CHOSEN;
                trail[at.length] = -(variable as i32 + 1);
                at.length += 1;
                at.steps.choices += 1;
            }
        }
        left -= 1;
    }
}
