//! The programs `finder` and `cnf`, run whole: line for line against the reference; the verdict, and that no case is ahead of
//! the one printed, against minisat and cadical on the clause text that `cnf` prints, and against brute force where there are
//! few cells.

use super::earlier::nothing_ahead;
use super::least::{printed_cells, Tally};
use super::limits::Limits;
use super::{agree, covered, hex};
use crate::solver::solve;
use crate::{Outcome, Run};
use reference::clauses::{count, translate};
use reference::dimacs::text;
use reference::finder::{finder, BYTES};
use reference::limits;
use reference::random::Source;
use reference::random_cells::cells;
use reference::random_damage::any;
use reference::random_limits::limited;
use reference::random_sheet::{closures, gates_of, pigeonhole, sheet, style};
use reference::search::{search, End};
use reference::sheet::{read, Sheet, LENGTH, SHORT};
use std::io::Write;
use std::process::{Command, Stdio};

/// Searches of more steps than this are not waited for.
const BUDGET: u64 = 3_000;

/// Sheets whose lists have 16,384 words, which the finder takes, and more.
pub fn full_lists() -> Vec<(usize, Sheet)> {
    let sheet = |(gates, mark, words)| {
        let mut sheet = gates_of(gates);
        sheet.relations[0].mark = mark;
        (words, sheet)
    };
    [(1_638, 0, 16_384), (1_638, 2, 16_386), (1_639, 0, 16_394)].map(sheet).to_vec()
}

/// The finder takes a list of exactly 16,384 words, and none of 16,386 or more.
fn full_list() -> Result<(), String> {
    for (words, sheet) in full_lists() {
        let bytes = sheet.bytes();
        agree(translate(&sheet).map(|list| list.words().len()), Ok(words), || hex(&bytes))?;
        agree(program("finder", &bytes)?, finder(&bytes), || format!("{words} words, sheet {}", hex(&bytes)))?;
    }
    Ok(())
}

/// What is printed of limited sorts, by hand: the first case and the clause text of K1 of up to two atoms; sheets of
/// 1,088 cells, of which one has too long a list.
fn limited_by_hand() -> Result<(), String> {
    for (sheet, cases) in limits::texts() {
        let bytes = sheet.bytes();
        let asked = || format!("by hand, sheet {}", hex(&bytes));
        agree(program("finder", &bytes)?.as_str(), limits::first_case(cases), asked)?;
    }
    for case in limits::cases() {
        let bytes = case.sheet.bytes();
        let words: Vec<i32> =
            case.clauses.iter().flat_map(|clause| [&[clause.len() as i32], *clause].concat()).collect();
        let asked = || format!("by hand, {}, sheet {}", case.name, hex(&bytes));
        agree(program("cnf", &bytes)?, text(&words, case.variables).unwrap_or_default(), asked)?;
        agree(program("finder", &bytes)?, finder(&bytes), asked)?;
    }
    let text = "p cnf 6 7\n1 0\n-4 2 0\n-5 3 0\n6 -4 0\n6 -5 0\n-6 4 5 0\n6 0\n";
    agree(program("cnf", &limits::some(130).bytes())?.as_str(), text, || "cnf, K1 of up to two atoms".to_string())?;
    let most = [limits::largest(0, 0), limits::largest(10, 2), limits::largest(16, 2)].map(|sheet| sheet.bytes());
    for bytes in &most {
        let asked = |name: &str| format!("{name}, 1,088 cells, sheet {}", hex(bytes));
        agree(program("finder", bytes)?, finder(bytes), || asked("finder"))?;
        agree(program("cnf", bytes)?, clause_text(bytes), || asked("cnf"))?;
    }
    let empty: String = (0..8).map(|sort| format!("s{sort} 00000000\n")).collect();
    let rows: String = (0..16).map(|relation| format!("r{relation}{}\n", " 00000000".repeat(8))).collect();
    agree(program("finder", &most[0])?, format!("found 1090\n{empty}{rows}"), || "1,088 cells".to_string())?;
    agree(program("finder", &most[2])?.as_str(), "refused 13\n", || "18,438 words".to_string())
}

pub fn run(run: &Run) -> Outcome {
    full_list()?;
    limited_by_hand()?;
    let mut tally = [("found", 0), ("none", 0), ("refused", 0), ("a solver", 0), ("a case with a 1", 0)];
    let (mut least, mut limits) = (Tally::default(), Limits::nothing());
    for case in run.cases(150) {
        let source = &mut Source::new(run.seed, "programs", case);
        let bytes = some_input(source);
        if is_long(&bytes) {
            continue;
        }
        let asked = || format!("case {case}, sheet {}", hex(&bytes));
        let printed = program("finder", &bytes)?;
        agree(&printed, &finder(&bytes), || format!("finder, {}", asked()))?;
        least.compare_printed(&printed, &bytes, asked)?;
        limits.printed(&bytes, &printed);
        let cnf = program("cnf", &bytes)?;
        agree(&cnf, &clause_text(&bytes), || format!("cnf, {}", asked()))?;
        let end = ["found ", "none "].iter().position(|head| printed.starts_with(head));
        tally[end.unwrap_or(2)].1 += 1;
        if end.is_some() {
            let v = count(&bytes).expect("a list").variables;
            let cells = by_solver(["minisat", "cadical"][case as usize % 2], (&cnf, v), &printed, asked)?;
            tally[3].1 += 1;
            tally[4].1 += usize::from(cells.contains(&1));
        }
    }
    if run.long && run.seed == 1 {
        // some 2^10 times the search of five in four: the budget of 1,000,000 is spent
        let bytes = pigeonhole(2, 5, 4).bytes();
        agree(program("finder", &bytes)?.as_str(), "spent 1000000\n", || hex(&bytes))?;
    }
    over_cells(run, "finder", &mut least)?;
    covered(&tally, 8)?;
    least.covered(8, 0)?;
    limits.covered(1, 2)?;
    Ok(format!("{}; {}; {}", said(tally), least.said(), limits.said()))
}

fn said([(_, found), (_, none), (_, refused), (_, solved), (_, ones)]: [(&str, usize); 5]) -> String {
    let all = found + none + refused;
    let solvers = format!("{solved} by solvers, by which nothing is ahead of the cases ({ones} with a 1)");
    format!("{all} inputs agree: {found} found, {none} none, {refused} refused; {solvers}")
}

/// What a program prints of sheets whose least instance depends on the order of the cells.
pub fn over_cells(run: &Run, name: &str, tally: &mut Tally) -> Result<(), String> {
    for case in run.cases(20) {
        let bytes = cells(&mut Source::new(run.seed, "programs, cells", case)).bytes();
        let asked = || format!("{name} over cells, case {case}, sheet {}", hex(&bytes));
        let printed = program(name, &bytes)?;
        agree(&printed, &finder(&bytes), asked)?;
        tally.compare_printed(&printed, &bytes, asked)?;
    }
    Ok(())
}

/// The verdict on the text of v variables is that of the finder; and nothing is ahead of the case that this prints,
/// whose cells are given.
fn by_solver(
    solver: &str,
    (cnf, v): (&str, u32),
    printed: &str,
    asked: impl Fn() -> String,
) -> Result<Vec<u8>, String> {
    let (found, cells) = (printed.starts_with("found "), printed_cells(printed));
    let verdict = solve(solver, cnf.as_bytes(), v)?;
    agree(found, verdict.is_satisfiable(), || format!("{solver}, {}", asked()))?;
    if found {
        nothing_ahead(solver, (cnf, v), &cells, asked)?;
    }
    Ok(cells)
}

pub fn some_input(source: &mut Source) -> Vec<u8> {
    let style = style(source);
    match source.below(18) {
        0..=1 => any(source),
        6..=7 => limited(source).bytes(),
        2 => [sheet(source, style).bytes(), vec![0; 4_200]].concat()[..BYTES + source.below(3)].to_vec(),
        3 => pigeonhole(0, source.between(2, 6) as u8, source.between(2, 5) as u8).bytes(),
        4 => gates_of(source.pick(&[5_000, 15_995, 15_996, 15_997, 15_998, 15_999, 16_000])).bytes(),
        5 => closures(source.below(2)).bytes(),
        _ => sheet(source, style).bytes(),
    }
}

/// Whether the search takes more steps than are waited for.
pub fn is_long(bytes: &[u8]) -> bool {
    let Ok(clauses) = read(bytes).and_then(|sheet| translate(&sheet)) else { return false };
    let list = clauses.words();
    if list.len() > reference::finder::WORDS {
        return false;
    }
    let v = clauses.variables as usize;
    let budget = BUDGET.min(4_000_000 / list.len() as u64);
    let answer = search(&list, v as u32, &mut vec![0; v], &mut vec![0; v], budget);
    answer.is_ok_and(|answer| answer.end == End::Spent)
}

/// The clause words that `cnf` takes.
const WORDS: usize = 262_144;

/// What `cnf` prints: the clause text, or the refusal in the finder's form.
pub fn clause_text(bytes: &[u8]) -> String {
    let sheet = if bytes.len() > BYTES { Err(LENGTH) } else { read(bytes) };
    let clauses = sheet.and_then(|sheet| translate(&sheet));
    let few = clauses.and_then(|clauses| if clauses.words().len() > WORDS { Err(SHORT) } else { Ok(clauses) });
    match few.and_then(|clauses| text(&clauses.words(), clauses.variables)) {
        Ok(text) => text,
        Err(number) => format!("refused {number}\n"),
    }
}

/// What a program of the library prints on an input.
pub fn program(name: &str, input: &[u8]) -> Result<String, String> {
    Ok(program_says(name, input)?.0)
}

/// What it prints, and what it says on standard error.
pub fn program_says(name: &str, input: &[u8]) -> Result<(String, String), String> {
    let mut command = Command::new(format!("target/bin/{name}"));
    let mut child = command
        .stdin(Stdio::piped())
        .stdout(Stdio::piped())
        .stderr(Stdio::piped())
        .spawn()
        .map_err(|error| format!("{name}: {error}"))?;
    let mut stdin = child.stdin.take().expect("a pipe");
    // a program may stop reading where the input is too long
    let _ = stdin.write_all(input);
    drop(stdin);
    let output = child.wait_with_output().map_err(|error| error.to_string())?;
    if !output.status.success() {
        return Err(format!("{name}: {}, sheet {}", output.status, hex(input)));
    }
    let text = |bytes| String::from_utf8(bytes).map_err(|error| error.to_string());
    Ok((text(output.stdout)?, text(output.stderr)?))
}
