//! Change 8 of document 02 in the suites: how often they met each of what it names.

use super::covered;
use super::least::printed_cells;
use reference::limits::{of_instance, of_sheet, LIMITS, MEMBERS};
use reference::sheet::{read, Sheet};

/// Sheets by what they have of it, and instances that were found.
pub struct Limits {
    sheets: [(&'static str, usize); LIMITS.len()],
    instances: [(&'static str, usize); MEMBERS.len()],
}

impl Limits {
    pub fn nothing() -> Limits {
        Limits { sheets: LIMITS.map(|what| (what, 0)), instances: MEMBERS.map(|what| (what, 0)) }
    }

    /// A sheet that was compared; one that is refused does not count.
    pub fn bytes(&mut self, bytes: &[u8]) {
        if let Ok(sheet) = read(bytes) {
            self.sheet(&sheet);
        }
    }

    pub fn sheet(&mut self, sheet: &Sheet) {
        self.sheets.iter_mut().zip(of_sheet(sheet)).for_each(|(what, met)| what.1 += usize::from(met));
    }

    /// An instance that satisfies.
    pub fn instance(&mut self, sheet: &Sheet, cells: &[u8]) {
        self.instances.iter_mut().zip(of_instance(sheet, cells)).for_each(|(what, met)| what.1 += usize::from(met));
    }

    /// A sheet that a program was run on, and what it printed.
    pub fn printed(&mut self, bytes: &[u8], printed: &str) {
        self.bytes(bytes);
        if printed.starts_with("found ") {
            self.instance(&read(bytes).expect("an accepted sheet"), &printed_cells(printed));
        }
    }

    /// That each was met often enough, in sheets and in instances.
    pub fn covered(&self, sheets: usize, instances: usize) -> Result<(), String> {
        covered(&self.sheets, sheets)?;
        covered(&self.instances, instances)
    }

    /// What is said in a suite's line: how many sheets, what was met least, and the instances.
    pub fn said(&self) -> String {
        let (least, times) = self.sheets.iter().min_by_key(|(_, times)| times).expect("one");
        let instances: Vec<String> = self.instances.iter().map(|(what, times)| format!("{times} {what}")).collect();
        let limited = format!("{} sheets with a limited sort, at least {times} of each ({least})", self.sheets[0].1);
        match self.instances.iter().all(|(_, times)| *times == 0) {
            true => limited,
            false => format!("{limited}, found with {}", instances.join(", ")),
        }
    }
}

/// Whether a list is that of a sheet with a limited sort: its second clause is (-cell, member), as in no other list of
/// a sheet.
pub fn is_limited(list: &[i32]) -> bool {
    matches!(list, [1, 1, 2, cell, member, ..] if *cell < 0 && *member > 0)
}
