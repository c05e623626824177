//! Clause text: the sizing figure is the text's length; the text byte for byte in slices that are exact, one byte shorter and
//! longer, much longer, random shorter and empty, with a known filling; texts parsed back; minisat, cadical and picosat read them.

use super::lengths::Met;
use super::limits::is_limited;
use super::{agree, covered, shown};
use crate::solver::{solve, SOLVERS};
use crate::{Outcome, Run};
use reference::clauses::translate;
use reference::digits;
use reference::dimacs::{parse, put, text};
use reference::random::Source;
use reference::random_list::{damage, list};
use reference::random_sheet::{gates_of, sheet, style};
use reference::search::cut;
use reference::sheet::read;

/// What stands in the slice before the call.
const FILLING: u8 = b'#';

/// K1; no clause; the last variable with both signs; ten clauses of literals on both sides of each further digit.
const MARKED: [(&[i32], u32, &str); 4] = [
    (&[1, 1, 2, 4, -2, 2, 4, -3, 3, -4, 2, 3, 1, 4], 4, "p cnf 4 5\n1 0\n4 -2 0\n4 -3 0\n-4 2 3 0\n4 0\n"),
    (&[], 1, "p cnf 1 0\n"),
    (&[2, 16_000, -16_000], 16_000, "p cnf 16000 1\n16000 -16000 0\n"),
    (
        &[
            1, 1, 1, -9, 1, 10, 1, -99, 1, 100, 1, -999, 1, 1_000, 1, -9_999, 1, 10_000, 8, 9, -10, 99, -100, 999,
            -1_000, 9_999, -10_000,
        ],
        10_000,
        "p cnf 10000 10\n1 0\n-9 0\n10 0\n-99 0\n100 0\n-999 0\n1000 0\n-9999 0\n10000 0\n\
         9 -10 99 -100 999 -1000 9999 -10000 0\n",
    ),
];

/// A list, and its text or number 12.
struct Case {
    name: String,
    words: Vec<i32>,
    v: u32,
    want: Result<String, u32>,
}

impl Case {
    fn new(name: String, (words, v): (Vec<i32>, u32)) -> Case {
        let want = text(&words, v);
        Case { name, words, v, want }
    }

    fn asked(&self) -> String {
        format!("{}, v {}, list {}", self.name, self.v, shown(&self.words))
    }

    /// Both calls, the text in slices of all kinds of lengths. Gives the bytes of the slice that is as long as the text.
    fn compare(&self, source: &mut Source, met: &mut Met) -> Result<Vec<u8>, String> {
        let size = self.want.as_ref().map(|text| text.len() as u64).map_err(|&number| number);
        agree(library::text_size(&self.words, self.v), size, || format!("size, {}", self.asked()))?;
        let exact = size.unwrap_or(40) as usize;
        let bytes = self.slice(exact, met)?;
        // what was to be lent before Change 4, and more
        let far = 7 * self.words.len() + 32 + source.below(9);
        for length in [exact - 1, exact + 1, far, source.below(exact), 0] {
            self.slice(length, met)?;
        }
        if size.is_ok() {
            let clauses = cut(&self.words, self.v).expect("a good list");
            met.list(&clauses, self.v);
            agree(parse(&bytes), Ok((self.v, clauses)), || self.asked())?;
        }
        Ok(bytes)
    }

    /// The text call with a slice of so many bytes, the whole slice compared.
    fn slice(&self, length: usize, met: &mut Met) -> Result<Vec<u8>, String> {
        let (mut got, mut want) = (vec![FILLING; length], vec![FILLING; length]);
        let wanted = self.want.as_ref().map_err(|&number| number).and_then(|text| put(text, &mut want));
        let answer = library::text(&self.words, self.v, &mut got);
        let asked = || format!("a slice of {length} bytes, {}", self.asked());
        agree(answer, wanted, asked)?;
        if got != want {
            let at = (0..length).find(|&at| got[at] != want[at]).unwrap_or(0);
            let from = |bytes: &[u8]| String::from_utf8_lossy(&bytes[at..length.min(at + 40)]).into_owned();
            agree(from(&got), from(&want), || format!("from byte {at} of {}", asked()))?;
        }
        met.call(answer, self.want.as_ref().ok().map(String::len), length);
        Ok(got)
    }
}

/// The texts that were written by hand, and the lists of all digits.
fn known(run: &Run, met: &mut Met) -> Result<(), String> {
    let source = &mut Source::new(run.seed, "dimacs, known", 0);
    for (words, v, by_hand) in MARKED {
        let case = Case { name: "by hand".into(), words: words.to_vec(), v, want: Ok(by_hand.into()) };
        agree(text(words, v).as_deref(), Ok(by_hand), || format!("reference, {}", case.asked()))?;
        case.compare(source, met)?;
    }
    for (number, list) in digits::few().into_iter().chain(digits::many()).enumerate() {
        Case::new(format!("digits {number}"), list).compare(source, met)?;
    }
    Ok(())
}

pub fn run(run: &Run) -> Outcome {
    let (mut met, mut limited) = (Met::nothing(), 0);
    known(run, &mut met)?;
    for number in run.cases(3_000) {
        let source = &mut Source::new(run.seed, "dimacs", number);
        let (mut words, mut v) = some_list(source, number);
        if source.chance(1, 4) {
            damage(source, &mut words, &mut v);
        }
        let case = Case::new(format!("case {number}"), (words, v));
        let bytes = case.compare(source, &mut met)?;
        limited += usize::from(is_limited(&case.words) && case.want.is_ok());
        if case.want.is_ok() && number % 100 == 0 {
            read_by_solvers(&bytes, v)?;
            met.read_by(SOLVERS.len());
        }
    }
    covered(&[("a list of a limited sheet", limited)], 30)?;
    Ok(format!("{}; {limited} lists of sheets with a limited sort", met.line()?))
}

fn some_list(source: &mut Source, case: u64) -> (Vec<i32>, u32) {
    if case % 500 == 0 {
        let clauses = translate(&gates_of(15_990)).expect("a list");
        return (clauses.words(), clauses.variables);
    }
    if source.chance(1, 6) {
        let style = style(source);
        let sheet = sheet(source, style);
        if let Ok(clauses) = read(&sheet.bytes()).and_then(|sheet| translate(&sheet)) {
            return (clauses.words(), clauses.variables);
        }
    }
    if source.chance(1, 3) {
        return digits::list(source);
    }
    list(source)
}

/// The solvers read the text without a complaint and agree with each other.
fn read_by_solvers(text: &[u8], v: u32) -> Result<(), String> {
    let text_of = || String::from_utf8_lossy(text).into_owned();
    let first = solve(SOLVERS[0], text, v)?;
    for solver in &SOLVERS[1..] {
        let verdict = solve(solver, text, v)?;
        agree(verdict.is_satisfiable(), first.is_satisfiable(), text_of)?;
    }
    Ok(())
}
