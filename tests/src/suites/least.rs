//! Change 5 of document 02: what was found against the first that satisfies by brute force, and how often that was asked.

use super::search::FEW;
use super::{agree, covered};
use reference::brute::{first_assignments, satisfying};
use reference::search::{cut, settled, End};
use reference::sheet::{read, visits, Sheet};

/// Instances are gone through up to so many cells, and up to so many visits of nodes for all of them.
const CELLS: usize = 14;
const VISITS: u128 = 1 << 22;

/// The least instance that satisfies marks and formula, or the first satisfying assignment, if there is one; and whether
/// another comes after it.
pub struct Least {
    pub first: Option<Vec<u8>>,
    several: bool,
}

impl Least {
    fn of(mut found: impl Iterator<Item = Vec<u8>>) -> Least {
        Least { first: found.next(), several: found.next().is_some() }
    }

    /// By the meaning of an accepted sheet; nothing where it has too many cells.
    pub fn of_sheet(sheet: &Sheet) -> Option<Least> {
        let few = sheet.cells() <= CELLS && visits(sheet) << sheet.cells() <= VISITS;
        few.then(|| Least::of(satisfying(sheet)))
    }

    /// Of a good list; nothing where there are too many variables.
    pub fn of_list(list: &[i32], v: u32) -> Option<Least> {
        let first_two = || first_assignments(v, &cut(list, v).expect("a good list"), 2);
        (v <= FEW).then(|| Least::of(first_two().into_iter()))
    }
}

/// How often a run that ended was compared; and among those that found something, where another satisfies too: all, those
/// with a 1 in what was found, and those that turned on their way.
#[derive(Default)]
pub struct Tally {
    found: usize,
    none: usize,
    several: usize,
    ones: usize,
    turned: usize,
}

impl Tally {
    /// A run over a good list from a fresh start: its end, its turns and the values that it left. Nothing is compared where
    /// it is spent or there are too many variables.
    pub fn compare_list(
        &mut self,
        (list, v): (&[i32], u32),
        (end, turns): (End, u64),
        values: &[u8],
        asked: impl Fn() -> String,
    ) -> Result<(), String> {
        if end == End::Spent {
            return Ok(());
        }
        let Some(least) = Least::of_list(list, v) else { return Ok(()) };
        let found = settled(&values[..v as usize]);
        self.compare((end == End::Found).then_some(&found), turns, &least, asked)
    }

    /// What a run found, or nothing after "none", and its turns.
    pub fn compare(
        &mut self,
        got: Option<&[u8]>,
        turns: u64,
        least: &Least,
        asked: impl Fn() -> String,
    ) -> Result<(), String> {
        agree(got, least.first.as_deref(), || format!("the least by brute force, {}", asked()))?;
        let Some(first) = got else {
            self.none += 1;
            return Ok(());
        };
        self.found += 1;
        self.several += usize::from(least.several);
        self.ones += usize::from(least.several && first.contains(&1));
        self.turned += usize::from(least.several && turns > 0);
        Ok(())
    }

    /// What a program printed of a sheet; nothing is compared where it names no end or there are too many cells.
    pub fn compare_printed(&mut self, printed: &str, sheet: &[u8], asked: impl Fn() -> String) -> Result<(), String> {
        let (found, none) = (printed.starts_with("found "), printed.starts_with("none "));
        let sheet = read(sheet).ok().filter(|_| found || none);
        let Some(least) = sheet.and_then(|sheet| Least::of_sheet(&sheet)) else { return Ok(()) };
        let cells = printed_cells(printed);
        self.compare(found.then_some(&cells), 0, &least, asked)
    }

    /// That enough was compared, and enough of it after a turn.
    pub fn covered(&self, enough: usize, turned: usize) -> Result<(), String> {
        let Tally { found, none, several, ones, .. } = *self;
        let met = [("a least one", found), ("none by brute force", none), ("several", several), ("with a 1", ones)];
        covered(&met, enough)?;
        covered(&[("a least one after a turn", self.turned)], turned)
    }

    /// What is said of it in a suite's line.
    pub fn said(&self) -> String {
        let Tally { found, none, several, ones, turned } = self;
        let turns = if *turned > 0 { format!(", {turned} after a turn") } else { String::new() };
        format!("{found} the least by brute force, {several} of several ({ones} with a 1{turns}), {none} none")
    }
}

/// The cells of a case as a program prints it: behind the first line, those of each limited sort and the rows of each
/// relation behind its name.
pub fn printed_cells(printed: &str) -> Vec<u8> {
    let rows = printed.lines().skip(1).flat_map(|line| line.split(' ').skip(1));
    rows.flat_map(|row| row.bytes()).map(|digit| digit.wrapping_sub(b'0')).collect()
}
