//! The reference alone: its clause texts and verdicts against minisat, cadical or picosat, where a sort is limited all
//! three; what it finds, and their verdicts, against brute force where there are few cells.

use super::least::{Least, Tally};
use super::limits::Limits;
use super::{agree, covered, hex};
use crate::solver::{solve, Verdict, SOLVERS};
use crate::{Outcome, Run};
use reference::brute::holds;
use reference::clauses::{translate, Clauses};
use reference::meaning::check;
use reference::random::Source;
use reference::random_sheet::{sheet, style};
use reference::search::{search, settled, End};
use reference::sheet::{self, Sheet};
use reference::{dimacs, limits};

/// More steps than this are not waited for.
const BUDGET: u64 = 2_000;

pub fn run(run: &Run) -> Outcome {
    let mut met = Met::nothing();
    for case in run.cases(100) {
        let source = &mut Source::new(run.seed, "solvers", case);
        let style = style(source);
        let sheet = sheet(source, style);
        let clauses = sheet::read(&sheet.bytes()).and_then(|sheet| translate(&sheet));
        // each of the three where a sort is limited, else one of them
        let each = if sheet.memberships() > 0 { 0..3 } else { case as usize % 3..case as usize % 3 + 1 };
        if let Ok(clauses) = clauses {
            each.into_iter().try_for_each(|solver| met.solve(&sheet, &clauses, solver))?;
            met.limits.sheet(&sheet);
        }
    }
    for case in limits::cases() {
        let clauses = translate(&case.sheet).map_err(|number| format!("refused {number}, {}", case.name))?;
        (0..3).try_for_each(|solver| met.solve(&case.sheet, &clauses, solver))?;
        met.limits.sheet(&case.sheet);
    }
    met.covered()?;
    Ok(met.said())
}

/// What was compared, and how often by each solver where a sort is limited.
struct Met {
    tally: [(&'static str, usize); 2],
    least: Tally,
    limits: Limits,
    limited_by: [(&'static str, usize); SOLVERS.len()],
}

impl Met {
    fn nothing() -> Met {
        let (tally, limited_by) = ([("satisfiable", 0), ("unsatisfiable", 0)], SOLVERS.map(|solver| (solver, 0)));
        Met { tally, least: Tally::default(), limits: Limits::nothing(), limited_by }
    }

    /// A solver's verdict on a sheet's text against the search; what it gives against clauses and meaning.
    fn solve(&mut self, sheet: &Sheet, clauses: &Clauses, solver: usize) -> Result<(), String> {
        let (list, v, bytes) = (clauses.words(), clauses.variables, sheet.bytes());
        let asked = || format!("{} on sheet {}", SOLVERS[solver], hex(&bytes));
        let (mut values, mut trail) = (vec![0; v as usize], vec![0; v as usize]);
        let answer = search(&list, v, &mut values, &mut trail, BUDGET).expect("a good list");
        let text = dimacs::text(&list, v).expect("a good list");
        let verdict = solve(SOLVERS[solver], text.as_bytes(), v).map_err(|error| format!("{error} {}", asked()))?;
        if answer.end != End::Spent {
            agree(answer.end == End::Found, verdict.is_satisfiable(), asked)?;
        }
        if let Verdict::Satisfiable(values) = &verdict {
            let cells = &values[1..1 + sheet.cells()];
            agree(clauses.clauses.iter().all(|clause| holds(clause, values)), true, asked)?;
            agree(check(&bytes, cells), Ok(true), asked)?;
            self.limits.instance(sheet, cells);
        }
        if let Some(least) = Least::of_sheet(sheet) {
            agree(least.first.is_some(), verdict.is_satisfiable(), asked)?;
            if answer.end != End::Spent {
                let found = (answer.end == End::Found).then(|| settled(&values[1..1 + sheet.cells()]));
                self.least.compare(found.as_deref(), answer.steps.turns, &least, asked)?;
            }
        }
        self.limited_by[solver].1 += usize::from(sheet.memberships() > 0);
        self.tally[usize::from(!verdict.is_satisfiable())].1 += 1;
        Ok(())
    }

    fn covered(&self) -> Result<(), String> {
        covered(&self.tally, 8)?;
        self.least.covered(4, 0)?;
        self.limits.covered(1, 5)?;
        covered(&self.limited_by, 15)
    }

    fn said(&self) -> String {
        let [(_, yes), (_, no)] = self.tally;
        let by: Vec<String> = self.limited_by.iter().map(|(solver, times)| format!("{times} {solver}")).collect();
        let (least, limits, by) = (self.least.said(), self.limits.said(), by.join(", "));
        format!("{} texts agree, {yes} satisfiable, {no} not; {least}; {limits}, by each solver {by}", yes + no)
    }
}
