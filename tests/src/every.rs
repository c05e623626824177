//! What the program prints that gives every case of a sheet, one after another (document 02, Change 6).

use crate::clauses::translate;
use crate::finder::{lines, read_back, BUDGET, BYTES, WORDS};
use crate::next::next;
use crate::resume::Position;
use crate::search::{End, OPEN};
use crate::sheet::{self, LENGTH, SHORT};

/// Each case as the finder prints one, then the end; each with the steps done since the start. The budget is for each call.
/// After so many cases nothing more is looked for, and the end is left out.
pub fn every(input: &[u8], most: usize) -> String {
    every_within(input, most, BUDGET)
}

/// The same with another budget for each call.
pub fn every_within(input: &[u8], most: usize, budget: u64) -> String {
    cases(input, most, budget).unwrap_or_else(|number| format!("refused {number}\n"))
}

fn cases(input: &[u8], most: usize, budget: u64) -> Result<String, u32> {
    if input.len() > BYTES {
        return Err(LENGTH);
    }
    let sheet = sheet::read(input)?;
    let clauses = translate(&sheet)?;
    let (list, v) = (clauses.words(), clauses.variables as usize);
    if list.len() > WORDS {
        return Err(SHORT);
    }
    let (mut values, mut trail, mut position) = (vec![OPEN; v], vec![0; v], Position::default());
    let (mut printed, mut instance) = (String::new(), vec![0; v]);
    for _ in 0..most {
        let answer = next(&list, clauses.variables, &mut values, &mut trail, &mut position, budget)?;
        let steps = answer.steps.sum();
        match answer.end {
            End::Found => {
                read_back(input, &values, &mut instance)?;
                printed += &format!("found {steps}\n{}", lines(&sheet, &instance));
            }
            End::None => return Ok(printed + &format!("none {steps}\n")),
            End::Spent => return Ok(printed + &format!("spent {steps}\n")),
        }
    }
    Ok(printed)
}
