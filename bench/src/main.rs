//! Measures of the library beside Rust, or of two of its calls, both in this one program, in turns; the best of some rounds
//! counts.
//! Before anything is timed, both sides are held to the same answers.

mod calls;
mod counters;
mod every;
mod idle;
mod reading;
mod resuming;
mod search;
mod steps;
mod text;
mod translation;
mod worked;

use reference::clauses::{translate, Clauses};
use reference::random::Source;
use reference::random_sheet::{closures, gates_of, sheet, style, Style};
use reference::sheet::{read, Sheet};
use std::hint::black_box;
use std::time::{Duration, Instant};

const SEED: u64 = 1;
const ROUNDS: usize = 5;

/// The finder's budget.
const BUDGET: u64 = 1_000_000;

/// The best time of both sides, taken in turns.
fn best(mut one: impl FnMut(), mut other: impl FnMut()) -> (Duration, Duration) {
    let mut least = (Duration::MAX, Duration::MAX);
    for _ in 0..ROUNDS {
        let start = Instant::now();
        one();
        let middle = Instant::now();
        other();
        least = (least.0.min(middle - start), least.1.min(middle.elapsed()));
    }
    least
}

const SIDES: [&str; 2] = ["library", "Rust"];

fn line(what: &str, units: u64, unit: &str, sides: [&str; 2], (one, other): (Duration, Duration)) {
    let each = |time: Duration| time.as_secs_f64() * 1e9 / units as f64;
    let (one, other) = (each(one), each(other));
    let [name, beside] = sides;
    println!("{what}: {units} {unit}, {name} {one:.0} ns each, {beside} {other:.0} ns each, ratio {:.2}", one / other);
}

/// Sheets whose lists fit, from the seed; none has a limited sort: `translation.rs` and versions before Change 8 have none.
fn sheets(number: usize) -> Vec<(Vec<u8>, Clauses)> {
    let mut sheets = Vec::new();
    for case in 0.. {
        if sheets.len() == number {
            break;
        }
        let source = &mut Source::new(SEED, "bench", case);
        let style = Style { rich: false, ..style(source) };
        let bytes = sheet(source, style).bytes();
        let Ok(sheet) = read(&bytes) else { continue };
        if sheet.memberships() > 0 {
            continue;
        }
        if let Ok(clauses) = translate(&sheet) {
            sheets.push((bytes, clauses));
        }
    }
    sheets
}

/// The searches of all lists with a budget for each.
fn searches(what: &str, lists: &[Clauses], budget: u64) {
    let words: Vec<Vec<i32>> = lists.iter().map(Clauses::words).collect();
    let longest = lists.iter().map(|list| list.variables as usize).max().unwrap_or(0);
    let (mut values, mut trail) = (vec![0; longest], vec![0; longest]);
    let (mut values2, mut trail2) = (values.clone(), trail.clone());
    let mut steps = 0;
    for (list, words) in lists.iter().zip(&words) {
        let v = list.variables as usize;
        let ours = library::search(words, v as u32, &mut values[..v], &mut trail[..v], budget);
        let rust = search::search(words, &mut values2[..v], &mut trail2[..v], budget);
        assert_eq!(ours, Ok(rust));
        assert_eq!((&values[..v], &trail[..v]), (&values2[..v], &trail2[..v]));
        steps += rust.steps.sum() as u64;
    }
    let each = |run: &mut dyn FnMut(&[i32], usize)| {
        lists.iter().zip(&words).for_each(|(list, words)| run(words, list.variables as usize));
    };
    let times = best(
        || {
            each(&mut |words, v| {
                let _ = black_box(library::search(words, v as u32, &mut values[..v], &mut trail[..v], budget));
            })
        },
        || {
            each(&mut |words, v| {
                black_box(search::search(words, &mut values2[..v], &mut trail2[..v], budget));
            })
        },
    );
    line(what, steps, "steps", SIDES, times);
}

/// Counting and writing of all sheets, for each gate. Both sides are held to the reference's list first. The Rust side gets
/// the sheets read, so the library's reading is timed by itself and taken off.
fn translations(sheets: &[(Vec<u8>, Clauses)]) {
    let read: Vec<Sheet> = sheets.iter().map(|(bytes, _)| read(bytes).expect("an accepted sheet")).collect();
    let (mut list, mut list2) = (vec![0; 1 << 20], vec![0; 1 << 20]);
    let mut gates = 0;
    for ((bytes, clauses), sheet) in sheets.iter().zip(&read) {
        let words = clauses.words();
        let size = library::write(bytes, &mut list);
        assert_eq!((size, &list[..words.len()]), (Ok(clauses.size()), words.as_slice()));
        let size = translation::translate(sheet, &mut list2);
        assert_eq!((size, &list2[..words.len()]), (Ok(clauses.size()), words.as_slice()));
        gates += clauses.variables as u64 - 1 - sheet.cells() as u64;
    }
    let counting = best(
        || {
            sheets.iter().for_each(|(bytes, _)| {
                let _ = black_box(library::count(bytes));
            })
        },
        || {
            read.iter().for_each(|sheet| {
                let _ = black_box(translation::translate(sheet, &mut []));
            })
        },
    );
    let writing = best(
        || {
            sheets.iter().for_each(|(bytes, _)| {
                let _ = black_box(library::write(bytes, &mut list));
            })
        },
        || {
            read.iter().for_each(|sheet| {
                let _ = black_box(translation::translate(sheet, &mut []));
                let _ = black_box(translation::translate(sheet, &mut list2));
            })
        },
    );
    let (reading, _) = best(
        || {
            sheets.iter().for_each(|(bytes, _)| {
                let _ = black_box(library::read(bytes));
            })
        },
        || (),
    );
    println!("reading: {} sheets, library {} ns each", sheets.len(), reading.as_nanos() / sheets.len() as u128);
    let less = |(library, rust): (Duration, Duration)| (library.saturating_sub(reading), rust);
    line("counting", gates, "gates", SIDES, less(counting));
    line("counting and writing", gates, "gates", SIDES, less(writing));
}

/// A sheet that would make over 10^9 gates is refused about as fast as one of 16,001 variables.
fn giving_up() {
    let (just, far) = (gates_of(15_997).bytes(), closures(190).bytes());
    assert_eq!((library::count(&just), library::count(&far)), (Err(10), Err(10)));
    let (just, far) = best(
        || {
            let _ = black_box(library::count(&just));
        },
        || {
            let _ = black_box(library::count(&far));
        },
    );
    println!("number 10: {} µs at 16,001 variables, {} µs at 1,475,543,040 gates", just.as_micros(), far.as_micros());
}

/// Clause text: the lists of the sheets, a large one, and one that no sheet has.
fn texts(lists: &[Clauses], large: &Clauses) {
    let list = |clauses: &Clauses| (clauses.words(), clauses.variables);
    text::texts("300 random sheets", &lists.iter().map(list).collect::<Vec<_>>());
    text::texts("a large sheet", &[list(large)]);
    text::texts("a random list", &[text::random_list(1_000_000, SEED)]);
}

/// All measures; or one that the run names; or those of the library alone.
fn main() {
    match std::env::args().nth(1).as_deref() {
        Some("steps") => steps::each(),
        Some("few") => steps::few(),
        Some("reading") => reading::each(),
        Some("alone") => alone(),
        _ => all(),
    }
}

/// What `bench/before` sets beside another version.
fn alone() {
    calls::each();
    steps::few();
    steps::ours();
}

fn all() {
    let sheets = sheets(300);
    let lists: Vec<Clauses> = sheets.iter().map(|(_, clauses)| clauses.clone()).collect();
    searches("search of 300 random sheets", &lists, 300);
    let large = translate(&gates_of(1_600)).expect("a list");
    let words = large.size().words;
    let large = [large];
    searches(&format!("search of a list of {words} words"), &large, 5_000);
    every::cases("every case of 300 random sheets", &lists, 300, 50);
    resuming::slices("search of 300 random sheets", &lists, 300);
    resuming::slices(&format!("search of a list of {words} words"), &large, 5_000);
    resuming::number_14("states of 300 random sheets", &lists, 300, 20);
    resuming::number_14(&format!("a state of a list of {words} words"), &large, 5_000, 400);
    let k1 = read(&[1, 0, 1, 2, 0, 0, 0, 4, 1, 0, 0, 0, 0, 6, 1, 0, 0, 22, 0, 0]).and_then(|sheet| translate(&sheet));
    resuming::number_14("a state of K1", &[k1.expect("a list")], 5_000, 20_000);
    reading::each();
    translations(&sheets);
    texts(&lists, &large[0]);
    giving_up();
    idle::walks();
    worked::table();
    steps::each();
    steps::few();
}
