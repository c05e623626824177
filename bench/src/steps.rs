//! A step of the search over lists of 4,000 to 16,000 words: the library's, that of the scan in Rust, and that of an index with counters in
//! Rust, in turns. And runs of few steps by the library alone, so that two versions of it can be set side by side (`bench/before`).

use crate::worked::examples;
use crate::{counters, search, BUDGET, ROUNDS};
use reference::clauses::{translate, Clauses};
use reference::large_sheets::{nested, orders, transition, Orders};
use reference::long_search::early;
use reference::random::Source;
use reference::random_list::three_each;
use reference::random_sheet::pigeonhole;
use reference::search::Answer;
use reference::sheet::Sheet;
use std::hint::black_box;
use std::time::{Duration, Instant};

/// The steps that are waited for.
const MOST: u64 = 100_000;

/// A list, and slices that a search of it is stored in.
struct Listed {
    words: Vec<i32>,
    values: Vec<u8>,
    trail: Vec<i32>,
}

/// A search over a good list, with slices of v values and v words.
type Search = fn(&[i32], &mut [u8], &mut [i32], u64) -> Answer;

fn by_library(list: &[i32], values: &mut [u8], trail: &mut [i32], budget: u64) -> Answer {
    library::search(list, values.len() as u32, values, trail, budget).expect("a good list")
}

impl Listed {
    fn new(words: Vec<i32>, v: usize) -> Listed {
        Listed { words, values: vec![0; v], trail: vec![0; v] }
    }

    fn of_sheet(sheet: &Sheet) -> Listed {
        let clauses: Clauses = translate(sheet).expect("a list");
        Listed::new(clauses.words(), clauses.variables as usize)
    }

    /// Clauses of three literals, about as many as leave it open whether all can be true.
    fn of_variables(v: usize) -> Listed {
        let source = &mut Source::new(crate::SEED, "bench, steps", v as u64);
        Listed::new(three_each(source, v, 43 * v / 10), v)
    }

    fn search(&mut self, search: Search, budget: u64) -> Answer {
        search(&self.words, &mut self.values, &mut self.trail, budget)
    }

    /// The same, and what it leaves.
    fn left(&mut self, search: Search, budget: u64) -> (Answer, Vec<u8>, Vec<i32>) {
        (self.search(search, budget), self.values.clone(), self.trail.clone())
    }

    /// The time of a search.
    fn timed(&mut self, search: Search, budget: u64) -> Duration {
        let start = Instant::now();
        black_box(self.search(search, budget));
        start.elapsed()
    }
}

fn lists() -> Vec<(String, Listed)> {
    let mut lists = Vec::new();
    let mut sheet = |name: String, sheet: Sheet| lists.push((name, Listed::of_sheet(&sheet)));
    (5..=7).for_each(|scope| sheet(format!("nested quantifiers, scope {scope}"), nested(scope)));
    (4..=5).for_each(|scope| sheet(format!("orders, scope {scope}"), orders(scope, Orders::Crossed)));
    (4..=5).for_each(|scope| sheet(format!("orders that are the same, scope {scope}"), orders(scope, Orders::Same)));
    sheet("orders turned, scope 5".to_string(), orders(5, Orders::Turned));
    sheet("transitions and back, scope 4".to_string(), transition(4, true));
    (5..=6).for_each(|scope| sheet(format!("transitions, scope {scope}"), transition(scope, false)));
    let random = [235, 291, 524, 907].map(|v| (format!("three literals, {v} variables"), Listed::of_variables(v)));
    lists.extend(random);
    lists
}

/// The sides, in turns.
const SIDES: [Search; 3] = [by_library, search::search, counters::search];

/// A line for each list: the time of a step of each side, the least of some rounds.
pub fn each() {
    for (name, mut list) in lists() {
        let [ours, scan, counters] = SIDES.map(|search| list.left(search, MOST));
        assert!(ours == scan && ours == counters, "{name}");
        let mut least = [Duration::MAX; 3];
        for _ in 0..ROUNDS {
            for (least, search) in least.iter_mut().zip(SIDES) {
                *least = list.timed(search, MOST).min(*least);
            }
        }
        let (words, steps) = (list.words.len(), ours.0.steps.sum());
        let [library, scan, counters] = least.map(|time| time.as_secs_f64() * 1e9 / steps as f64);
        let times = format!("library {library:.0} ns, scan {scan:.0} ns, counters {counters:.0} ns");
        let ratios = format!("scan / library {:.1}, library / counters {:.2}", scan / library, library / counters);
        println!("a step of {name}: {words} words, {steps} steps; {times}; {ratios}");
    }
}

/// Sheets with a short search: K1 to K5, and some of about 10, 50 and 300 steps.
fn short() -> Vec<(String, Sheet)> {
    let mut sheets: Vec<(String, Sheet)> = examples().into_iter().filter(|(name, _)| name.starts_with('k')).collect();
    let mut push = |name: &str, sheet| sheets.push((name.to_string(), sheet));
    push("no element", early(&[(3, 0)], 0));
    push("one hole each", pigeonhole(0, 3, 3));
    push("a hole too few", pigeonhole(0, 4, 3));
    push("orders", orders(3, Orders::Crossed));
    push("nested quantifiers", nested(4));
    sheets
}

/// The time of some work in ns: the least of many short rounds, in each of which it is done again and again.
pub fn repeated(mut work: impl FnMut()) -> f64 {
    let start = Instant::now();
    work();
    let times = 1 + 2_000_000 / (start.elapsed().as_nanos().max(1) as u64);
    let mut least = Duration::MAX;
    for _ in 0..5 * ROUNDS {
        let start = Instant::now();
        (0..times).for_each(|_| work());
        least = least.min(start.elapsed());
    }
    least.as_secs_f64() * 1e9 / times as f64
}

/// A line for each: the library's search of the list, and the whole run.
pub fn few() {
    for (name, sheet) in short() {
        let (mut list, bytes) = (Listed::of_sheet(&sheet), sheet.bytes());
        let Answer { end, steps } = list.search(by_library, BUDGET);
        let search = repeated(|| {
            black_box(list.search(by_library, BUDGET));
        });
        let (mut words, mut instance) = (list.words.clone(), vec![0; sheet.cells()]);
        let find = repeated(|| {
            let found = library::find(&bytes, &mut words, &mut list.values, &mut list.trail, &mut instance, BUDGET);
            assert_eq!(black_box(found), Ok(Answer { end, steps }));
        });
        let (words, steps) = (words.len(), steps.sum());
        println!(
            "few steps: {name}, {words} words, {end:?} after {steps} steps, search {search:.1} ns, find {find:.1} ns"
        );
    }
}

/// A line for each of the longer lists: a step of the library's search alone.
pub fn ours() {
    for (name, mut list) in lists() {
        let steps = list.search(by_library, MOST).steps.sum() as f64;
        let step = repeated(|| {
            black_box(list.search(by_library, MOST));
        });
        println!("steps: {name}, {} words, step {:.2} ns", list.words.len(), step / steps);
    }
}
