//! The deepest sheets through every call and every program, and one whose search goes on by an index (`ways.rs`): the answers are the
//! reference's, and no more stack is taken than docs/MEASURES.md states.

use super::every::{is_whole, printed_lines};
use super::programs::clause_text;
use super::{agree, hex};
use crate::painted::depth_of;
use crate::{Outcome, Run};
use reference::deep::sheets;
use reference::every::every;
use reference::finder::finder;
use reference::limits::largest;
use reference::random::Source;
use reference::random_sheet::gates_of;
use reference::random_state::{Call, Resume};
use reference::sheet::{Node, Sheet};
use std::process::{Command, Stdio};

/// The stated stacks in KB (docs/MEASURES.md, "Stack").
const CALLS: [(&str, usize); 11] = [
    ("read", 64),
    ("check", 512),
    ("count", 1_024),
    ("write", 1_024),
    ("read_back", 1_024),
    ("find", 1_024),
    ("search", 256),
    ("text_size", 64),
    ("text", 64),
    ("resume", 256),
    ("next", 256),
];
const PROGRAMS: [(&str, usize); 4] = [("finder", 1_024), ("cnf", 1_024), ("finder_on", 1_024), ("every", 1_024)];

/// The cases of a sheet that are looked at.
const CASES: usize = 3;

/// How deep a call went so far: its place in `CALLS`.
type Depths = [usize; CALLS.len()];

/// Runs a call on a painted stack, and again in a thread with the stated stack, and holds both answers to the wanted one.
fn call<T>(depths: &mut Depths, at: usize, work: impl Fn() -> T + Sync, want: T, asked: &str) -> Result<(), String>
where
    T: PartialEq + std::fmt::Debug + Send,
{
    let (name, stated) = CALLS[at];
    let mut got = None;
    let depth = depth_of(&mut || got = Some(work()));
    depths[at] = depths[at].max(depth);
    agree(got.as_ref(), Some(&want), || format!("{name}, {asked}"))?;
    if depth > stated * 1_024 {
        return Err(format!("{name} took {depth} bytes of stack, {stated} KB are stated; {asked}"));
    }
    let again = std::thread::scope(|scope| {
        let thread = std::thread::Builder::new().stack_size(stated * 1_024);
        thread.spawn_scoped(scope, &work).expect("a thread").join().expect("its answer")
    });
    agree(again, want, || format!("{name} in {stated} KB, {asked}"))
}

/// The steps that are waited for.
const BUDGET: u64 = 100;

/// Every call on a sheet.
fn calls(depths: &mut Depths, sheet: &Sheet, asked: &str) -> Result<(), String> {
    let bytes = sheet.bytes();
    call(depths, 0, || library::read(&bytes), reference::sheet::read(&bytes).map(|_| ()), asked)?;
    let cells = vec![1; sheet.cells()];
    call(depths, 1, || library::check(&bytes, &cells), reference::meaning::check(&bytes, &cells), asked)?;
    let counted = reference::clauses::count(&bytes);
    call(depths, 2, || library::count(&bytes), counted, asked)?;
    let (v, words) = counted.map_or((0, 0), |size| (size.variables as usize, size.words as usize));
    let written = |write: &dyn Fn(&mut [i32]) -> Result<_, u32>| {
        let mut list = vec![0; words];
        (write(&mut list), list)
    };
    let want = written(&|list| reference::clauses::write(&bytes, list));
    let list = want.1.clone();
    call(depths, 3, || written(&|list| library::write(&bytes, list)), want, asked)?;
    let found = |find: Find| {
        let (mut list, mut values, mut trail, mut instance) = (vec![0; words], vec![0; v], vec![0; v], vec![0; v]);
        let answer = find(&bytes, &mut list, &mut values, &mut trail, &mut instance, BUDGET);
        (answer.map(|answer| (answer.end, answer.steps)), values, trail, instance)
    };
    call(depths, 5, || found(library::find), found(reference::finder::find), asked)?;
    if counted.is_err() {
        return Ok(());
    }
    let values = vec![1; v];
    let copied = |copy: fn(&[u8], &[u8], &mut [u8]) -> Result<usize, u32>| {
        let mut instance = vec![0; v];
        (copy(&bytes, &values, &mut instance), instance)
    };
    call(depths, 4, || copied(library::read_back), copied(reference::finder::read_back), asked)?;
    list_calls(depths, &list, v as u32, asked)
}

type Find = fn(&[u8], &mut [i32], &mut [u8], &mut [i32], &mut [u8], u64) -> Result<reference::search::Answer, u32>;

/// The calls on a clause list.
fn list_calls(depths: &mut Depths, list: &[i32], v: u32, asked: &str) -> Result<(), String> {
    let searched = |search: fn(&[i32], u32, &mut [u8], &mut [i32], u64) -> Result<reference::search::Answer, u32>| {
        let (mut values, mut trail) = (vec![0; v as usize], vec![0; v as usize]);
        let answer = search(list, v, &mut values, &mut trail, BUDGET);
        (answer.map(|answer| (answer.end, answer.steps)), values, trail)
    };
    call(depths, 6, || searched(library::search), searched(reference::search::search), asked)?;
    let resumed = |resume: Resume| {
        let mut call = Call { budget: BUDGET, ..Call::fresh(&mut Source::new(0, "", 0), list, v) };
        let answers = [call.make(resume), call.make(resume), call.make(resume)];
        (answers, call.values, call.trail, call.position)
    };
    call(depths, 9, || resumed(library::resume), resumed(reference::resume::resume), asked)?;
    call(depths, 10, || resumed(library::next), resumed(reference::next::next), asked)?;
    let size = reference::dimacs::size(list, v);
    call(depths, 7, || library::text_size(list, v), size, asked)?;
    let printed = |text: fn(&[i32], u32, &mut [u8]) -> Result<u64, u32>| {
        let mut bytes = vec![0; size.unwrap_or(0) as usize];
        (text(list, v, &mut bytes), bytes)
    };
    call(depths, 8, || printed(library::text), printed(reference::dimacs::write), asked)
}

/// A program with the stated stack.
fn program(name: &str, stated: usize) -> Command {
    let script = format!("ulimit -s {stated} && exec target/bin/{name}");
    let mut command = Command::new("bash");
    command.args(["-c", &script]).stderr(Stdio::null());
    command
}

/// Unions of relation 0 of `largest` with itself over each other, 200 nodes.
fn deepest_of_most_cells() -> Sheet {
    let mut sheet = largest(0, 0);
    sheet.nodes.truncate(1);
    (0..198).for_each(|below| sheet.nodes.push(Node { kind: 5, a: below, b: 0 }));
    sheet.nodes.push(Node { kind: 23, a: 198, b: 0 });
    sheet
}

pub fn run(_: &Run) -> Outcome {
    let mut depths = [0; CALLS.len()];
    let deepest = sheets();
    // the lists of most of the deepest are too long for an index, or too short for one within the steps that are waited for
    let indexed = ("by an index".to_string(), gates_of(400));
    let largest = ("of 1,088 cells".to_string(), deepest_of_most_cells());
    for (name, sheet) in deepest.iter().chain([&indexed, &largest]) {
        let bytes = sheet.bytes();
        let asked = format!("{name}, sheet {}", hex(&bytes));
        calls(&mut depths, sheet, &asked)?;
        for (program_name, stated) in PROGRAMS {
            let want = match program_name {
                "cnf" => clause_text(&bytes),
                "every" => every(&bytes, CASES),
                _ => finder(&bytes),
            };
            let asked = || format!("{program_name} with a stack of {stated} KB, {asked}");
            let all = program_name != "every" || is_whole(&want);
            let got = printed_lines(program(program_name, stated), &bytes, want.lines().count(), all);
            let got = got.map_err(|error| format!("{error}, {}", asked()))?;
            agree(got, want, asked)?;
        }
    }
    let seen: Vec<String> =
        CALLS.iter().zip(depths).map(|((name, _), depth)| format!("{name} {}", depth.div_ceil(1_024))).collect();
    let sheets = format!(
        "{} sheets of 200 nodes, 7 of them with limited sorts, one of 1,088 cells and one of an index",
        deepest.len()
    );
    Ok(format!("{sheets} within the stated stacks; KB taken: {}", seen.join(", ")))
}
