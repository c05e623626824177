//! Counting and writing: the three figures, and the list word for word in slices that are exact, one
//! word short, and longer with a known filling behind. What OR strikes out, and where it is 1, must have come up.

use super::limits::Limits;
use super::{agree, covered, hex};
use crate::{Outcome, Run};
use reference::clauses::{translate, write, Clauses, Size, MET};
use reference::every_kind;
use reference::random::Source;
use reference::random_damage::any;
use reference::random_sheet::{closures, gates_of, long_walk, sheet, style};
use reference::sheet::{read, Sheet, LIMIT};
use reference::{idle_walks, limits, shadows, struck};

/// What stands in the slice before the call.
const FILLING: i32 = 0x5eed;

/// K1, K2, K5, K6 and "r equal r": the sheet, its variables, and its clauses by hand.
type Marked = (&'static [u8], u32, &'static [&'static [i32]]);

const fn small(mark: u8, kind: u8, b: u8) -> [u8; 20] {
    [1, 0, 1, 2, 0, 0, 0, 4, 1, mark, 0, 0, 0, 6, 1, 0, 0, kind, 0, b]
}

const K6: &[u8] = &[1, 0, 1, 1, 0, 0, 0, 4, 2, 0, 0, 0, 0, 9, 1, 0, 0, 11, 0, 0, 22, 1, 0];

const MARKED: [Marked; 5] = [
    (&small(0, 22, 0), 4, &[&[1], &[4, -2], &[4, -3], &[-4, 2, 3], &[4]]),
    (&small(2, 22, 0), 4, &[&[1], &[-2, -3], &[2, 3], &[4, -2], &[4, -3], &[-4, 2, 3], &[4]]),
    // AND over the one pair of OR(-2, -3), which is the gate 4 itself
    (&small(0, 24, 0), 4, &[&[1], &[4, 2], &[4, 3], &[-4, -2, -3], &[4]]),
    (K6, 2, &[&[1], &[2]]),
    // OR(-2, 2) is 1, so that IFF(2, 2) is 1, and the whole is
    (&small(0, 20, 0), 3, &[&[1], &[1]]),
];

fn compare_marked(sheet: &[u8], variables: u32, clauses: &[&[i32]]) -> Result<(), String> {
    let words: Vec<i32> = clauses.iter().flat_map(|clause| [&[clause.len() as i32], *clause].concat()).collect();
    let size = Size { variables, clauses: clauses.len() as u32, words: words.len() as u32 };
    let asked = || format!("marked, sheet {}", hex(sheet));
    agree(library::count(sheet), Ok(size), asked)?;
    let mut list = vec![FILLING; words.len() + 1];
    agree(library::write(sheet, &mut list), Ok(size), asked)?;
    agree(list, [words, vec![FILLING]].concat(), asked)
}

/// The lists that were worked out by hand, and the figures of sheets of 1,088 cells; how many.
fn by_hand() -> Result<usize, String> {
    MARKED.iter().try_for_each(|&(sheet, variables, clauses)| compare_marked(sheet, variables, clauses))?;
    let cases: Vec<struck::Case> = struck::cases().into_iter().chain(limits::cases()).collect();
    cases.iter().try_for_each(|case| compare_marked(&case.sheet.bytes(), case.variables, case.clauses))?;
    for (marked, clauses, words) in [(0, 2_115, 6_406), (10, 4_435, 13_926), (16, 5_827, 18_438)] {
        let (bytes, size) = (limits::largest(marked, 2).bytes(), Size { variables: 1_090, clauses, words });
        agree(library::count(&bytes), Ok(size), || format!("marked, sheet {}", hex(&bytes)))?;
    }
    Ok(MARKED.len() + cases.len())
}

pub fn run(run: &Run) -> Outcome {
    let (by_hand, mut limited) = (by_hand()?, Limits::nothing());
    let mut tally = [("a list", 0), ("number 10", 0), ("number 13", 0), ("a refused sheet", 0)];
    let mut met = MET.map(|what| (what, 0));
    let kinds = known();
    let mut words = 0;
    for case in run.cases(3_400) {
        let source = &mut Source::new(run.seed, "count", case);
        let bytes = match kinds.get(case as usize) {
            Some(sheet) => sheet.bytes(),
            None => some_sheet(source),
        };
        let list = read(&bytes).and_then(|sheet| translate(&sheet));
        let asked = || format!("case {case}, sheet {}", hex(&bytes));
        agree(library::count(&bytes), list.as_ref().map(Clauses::size).map_err(|&number| number), asked)?;
        limited.bytes(&bytes);
        match list {
            Ok(list) => {
                let size = list.size().words as usize;
                words += size;
                met.iter_mut().zip(list.met).for_each(|(what, times)| what.1 += usize::from(times > 0));
                let lengths = [size, size - 1, size + 1 + source.below(9), source.below(size)];
                lengths.iter().try_for_each(|&length| compare(&bytes, length, case, &mut tally))?;
            }
            Err(_) => compare(&bytes, source.below(30), case, &mut tally)?,
        }
    }
    covered(&tally, 20)?;
    covered(&met, 30)?;
    limited.covered(50, 0)?;
    let [(_, lists), (_, size), (_, short), (_, refused)] = tally;
    let writes = lists + size + short + refused;
    let met: Vec<String> = met.iter().map(|(what, sheets)| format!("{what} in {sheets}")).collect();
    Ok(format!(
        "{by_hand} lists by hand, {writes} writes and their counts agree: {lists} lists, {words} words, \
         {size} number 10, {short} number 13; {}; {}",
        met.join(", "),
        limited.said()
    ))
}

/// A random sheet, damaged at times; one near the limit of number 10; a long walk.
fn some_sheet(source: &mut Source) -> Vec<u8> {
    let style = style(source);
    match source.below(60) {
        0..=8 => any(source),
        9..=10 => gates_of(15_990 + source.below(20)).bytes(),
        11..=12 => long_walk(source.between(1, 8) as u8 + source.pick(&[0, LIMIT]), source.between(1, 150)).bytes(),
        _ => sheet(source, style).bytes(),
    }
}

/// Each kind at each scope, also as an upper limit, each pair of binders of one variable, walks without gates, far more
/// gates than fit, and sheets of 1,088 cells.
fn known() -> Vec<Sheet> {
    let idle = idle_walks::sheets(2, 60).into_iter().map(|(_, sheet)| sheet);
    let sheets = every_kind::accepted().into_iter().chain(shadows::sheets(3)).chain(shadows::sheets(131)).chain(idle);
    let limited = [Sheet { scopes: vec![136], ..closures(1) }, limits::largest(16, 2), limits::largest(10, 2)];
    sheets.chain([closures(1), closures(190)]).chain(limited).collect()
}

/// Writing into a slice of so many words, the whole slice compared.
fn compare(bytes: &[u8], length: usize, case: u64, tally: &mut [(&str, usize); 4]) -> Result<(), String> {
    let (mut got, mut want) = (vec![FILLING; length], vec![FILLING; length]);
    let (answer, wanted) = (library::write(bytes, &mut got), write(bytes, &mut want));
    let asked = || format!("case {case}, {length} words, sheet {}", hex(bytes));
    agree(answer, wanted, asked)?;
    if let Some(at) = (0..length).find(|&at| got[at] != want[at]) {
        agree(got[at], want[at], || format!("word {at} of {}", asked()))?;
    }
    let at = match wanted {
        Ok(_) => 0,
        Err(10) => 1,
        Err(13) => 2,
        Err(_) => 3,
    };
    tally[at].1 += 1;
    Ok(())
}
