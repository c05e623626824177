//! Read-back, the whole run over lent slices, and what the finder program prints
//! (document 01, "Answers that decline", "The finder program"; document 02, Change 8).

use crate::clauses::{self, translate};
use crate::search::{search, settled, Answer, End, CHOSEN};
use crate::sheet::{self, Sheet, CELLS, LENGTH, SHORT};

/// What the finder program lends and allows.
pub const WORDS: usize = 16_384;
pub const BUDGET: u64 = 1_000_000;
pub const BYTES: usize = 4_096;

/// Read-back: numbers 1 to 11 and 13, else the cells' values are copied to the front of the instance, a 3 as 0.
pub fn read_back(bytes: &[u8], values: &[u8], instance: &mut [u8]) -> Result<usize, u32> {
    let sheet = sheet::read(bytes)?;
    let size = clauses::count(bytes)?;
    let cells = sheet.cells();
    if values.len() != size.variables as usize {
        return Err(CELLS);
    }
    // variable 1 is the constant true, the cells come next
    let of_cells = &values[1..1 + cells];
    if of_cells.iter().any(|&value| value > 1 && value != CHOSEN) {
        return Err(CELLS);
    }
    if instance.len() < cells {
        return Err(SHORT);
    }
    instance[..cells].copy_from_slice(&settled(of_cells));
    Ok(cells)
}

/// The whole run over lent slices: 1 to 10, then 13 for any slice before one is written to.
pub fn find(
    bytes: &[u8],
    list: &mut [i32],
    values: &mut [u8],
    trail: &mut [i32],
    instance: &mut [u8],
    budget: u64,
) -> Result<Answer, u32> {
    let sheet = sheet::read(bytes)?;
    let clauses = translate(&sheet)?;
    let words = clauses.words();
    let v = clauses.variables as usize;
    if list.len() < words.len() || values.len() < v || trail.len() < v || instance.len() < sheet.cells() {
        return Err(SHORT);
    }
    list[..words.len()].copy_from_slice(&words);
    let answer = search(&words, clauses.variables, values, trail, budget)?;
    if answer.end == End::Found {
        read_back(bytes, &values[..v], instance)?;
    }
    Ok(answer)
}

/// The line of each limited sort: `s`, its number, its membership cells as digits. Then the line of each relation: `r`,
/// its number, then its rows as digits, separated by single spaces.
pub fn lines(sheet: &Sheet, instance: &[u8]) -> String {
    let mut out = String::new();
    let mut cells = instance.iter();
    let mut line = |name: String, rows: usize, columns: usize| {
        out += &name;
        for _ in 0..rows {
            let digits: String = cells.by_ref().take(columns).map(|cell| cell.to_string()).collect();
            out += &format!(" {digits}");
        }
        out += "\n";
    };
    for sort in sheet.limited() {
        line(format!("s{sort}"), 1, sheet.scope(sort));
    }
    for (number, relation) in sheet.relations.iter().enumerate() {
        let (rows, columns) = sheet.extent(relation.shape());
        line(format!("r{number}"), rows, columns);
    }
    out
}

/// What the finder program prints; its steps are those of all kinds.
pub fn finder(input: &[u8]) -> String {
    run(input, BUDGET).unwrap_or_else(|number| format!("refused {number}\n"))
}

/// What the program prints that goes on where the finder is spent: the same, up to an end.
pub fn finder_on(input: &[u8]) -> String {
    run(input, u64::MAX).unwrap_or_else(|number| format!("refused {number}\n"))
}

fn run(input: &[u8], budget: u64) -> Result<String, u32> {
    if input.len() > BYTES {
        return Err(LENGTH);
    }
    let size = clauses::count(input)?;
    let v = size.variables as usize;
    let (mut list, mut values, mut trail, mut instance) = (vec![0; WORDS], vec![0; v], vec![0; v], vec![0; v]);
    let answer = find(input, &mut list, &mut values, &mut trail, &mut instance, budget)?;
    let steps = answer.steps.sum();
    Ok(match answer.end {
        End::Found => format!("found {steps}\n") + &lines(&sheet::read(input)?, &instance),
        End::None => format!("none {steps}\n"),
        End::Spent => format!("spent {steps}\n"),
    })
}
