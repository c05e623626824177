//! The program behind `./find --on`: where the finder ends it prints the same; where the finder is spent it goes on, says so,
//! and prints the end with the total of steps. What it prints is the least instance where there are few cells.

use super::least::{printed_cells, Tally};
use super::limits::Limits;
use super::programs::{is_long, over_cells, program, program_says, some_input};
use super::{agree, covered, hex};
use crate::{Outcome, Run};
use reference::brute;
use reference::finder::{finder, finder_on};
use reference::limits::{cases, first_case, texts};
use reference::long_search::{long, of_15_625};
use reference::random::Source;
use reference::sheet::Sheet;
use std::process::Command;

const PROGRAM: &str = "finder_on";

/// A sheet, what the finder prints, what the program prints, and how many of its calls are spent.
type Long = (Sheet, String, String, u64);

fn long_searches(run: &Run) -> Vec<Long> {
    let spent = || "spent 1000000\n".to_string();
    let none = |steps: u64| format!("none {steps}\n");
    let mut sheets = vec![
        // ends with the last step that the finder allows, with the first of the next call, and with the last of it
        (of_15_625(6, 0), none(1_000_000), none(1_000_000), 0),
        (of_15_625(6, 1), spent(), none(1_000_001), 1),
        (of_15_625(7, 0), spent(), none(2_000_000), 1),
    ];
    let late = long(&[(8, 0), (8, 0), (1, 0)], 0, true);
    let found = finder_on(&late.bytes());
    sheets.push((late, spent(), found, 1));
    if run.long {
        sheets.push((of_15_625(7, 1), spent(), none(2_000_001), 2));
        sheets.push((long(&[(8, 0), (8, 0), (3, 0)], 0, false), spent(), none(5_242_880), 5));
    }
    sheets
}

pub fn run(run: &Run) -> Outcome {
    let (mut ended, mut least, mut limits) = (0, Tally::default(), Limits::nothing());
    for case in run.cases(40) {
        let bytes = some_input(&mut Source::new(run.seed, "onward", case));
        if !is_long(&bytes) {
            let asked = || format!("case {case}, sheet {}", hex(&bytes));
            let printed = program(PROGRAM, &bytes)?;
            agree(&printed, &finder(&bytes), asked)?;
            least.compare_printed(&printed, &bytes, asked)?;
            limits.printed(&bytes, &printed);
            ended += 1;
        }
    }
    covered(&[("an end of the finder", ended)], 20)?;
    limited(&mut limits)?;
    limits.covered(1, 1)?;
    over_cells(run, PROGRAM, &mut least)?;
    least.covered(3, 0)?;
    let sheets = long_searches(run);
    let beyond = go_beyond(&sheets)?;
    covered(&[("a case found beyond the budget", beyond)], 1)?;
    let (sheet, _, all, _) = &sheets[1];
    command(&sheet.bytes(), all)?;
    let least = format!("{}; {beyond} beyond the budget too; {}", least.said(), limits.said());
    Ok(format!("{ended} inputs as by the finder, {} at the end of its budget and beyond; {least}", sheets.len()))
}

/// Sheets with a limited sort, by hand.
fn limited(limits: &mut Limits) -> Result<(), String> {
    for (sheet, cases) in texts() {
        let (bytes, printed) = (sheet.bytes(), program(PROGRAM, &sheet.bytes())?);
        agree(printed.as_str(), first_case(cases), || format!("by hand, sheet {}", hex(&bytes)))?;
        limits.printed(&bytes, &printed);
    }
    for bytes in cases().iter().map(|case| case.sheet.bytes()) {
        let printed = program(PROGRAM, &bytes)?;
        agree(&printed, &finder(&bytes), || format!("limited, sheet {}", hex(&bytes)))?;
        limits.printed(&bytes, &printed);
    }
    Ok(())
}

/// Searches that the finder does not end; how many of them find a case.
fn go_beyond(sheets: &[Long]) -> Result<usize, String> {
    let mut beyond = 0;
    for (sheet, first, all, spent) in sheets {
        let bytes = sheet.bytes();
        let said: String = (1..=*spent).map(|calls| format!("find: {calls}000000 steps\n")).collect();
        agree(&program("finder", &bytes)?, first, || format!("finder, sheet {}", hex(&bytes)))?;
        let printed = program_says(PROGRAM, &bytes)?;
        agree(&printed, &(all.clone(), said), || format!("sheet {}", hex(&bytes)))?;
        if all.starts_with("found ") {
            let asked = || format!("the least by brute force, sheet {}", hex(&bytes));
            agree(Some(printed_cells(&printed.0)), brute::least(sheet), asked)?;
            beyond += 1;
        }
    }
    Ok(beyond)
}

/// `./find --on FILE` prints what the program prints.
fn command(sheet: &[u8], want: &str) -> Result<(), String> {
    let file = "target/tests/sheet";
    std::fs::write(file, sheet).map_err(|error| error.to_string())?;
    let output = Command::new("./find").args(["--on", file]).output().map_err(|error| error.to_string())?;
    let printed = String::from_utf8_lossy(&output.stdout).to_string();
    agree((printed.as_str(), output.status.code()), (want, Some(0)), || "./find --on".to_string())
}
