//! The check: marked cases, each kind over each pair of operands, random sheets with random instances, all instances where
//! there are few, such with a 1 of an atom that is no member, and bad instances.

use super::limits::Limits;
use super::{agree, covered, hex};
use crate::{Outcome, Run};
use reference::brute::all;
use reference::every_kind::{self, solution};
use reference::limits::{checks, digits, largest, of_instance, some, NO_CELLS};
use reference::meaning::check;
use reference::random::Source;
use reference::random_damage::{any, damage_records};
use reference::random_limits::{one_outside, within};
use reference::random_sheet::{instance, sheet, style};
use reference::shadows;
use reference::sheet::{read, Sheet, CELLS};

/// All instances are tried up to so many cells.
const FEW: usize = 6;

/// K1: some r, for a set r of scope 2.
const SOME: &[u8] = &[1, 0, 1, 2, 0, 0, 0, 4, 1, 0, 0, 0, 0, 6, 1, 0, 0, 22, 0, 0];
/// No pair in r, for a relation r of scope 2 with mark 1, and with mark 2.
const AT_MOST_ONE: &[u8] = &[1, 0, 1, 2, 0, 0, 0, 4, 2, 1, 0, 0, 0, 6, 1, 0, 0, 23, 0, 0];
const EXACTLY_ONE: &[u8] = &[1, 0, 1, 2, 0, 0, 0, 4, 2, 2, 0, 0, 0, 6, 1, 0, 0, 23, 0, 0];
/// The identity within the closure of r, for a relation r of scope 5.
const CYCLES: &[u8] = &[1, 0, 1, 5, 0, 0, 0, 4, 2, 0, 0, 0, 0, 12, 1, 0, 0, 11, 0, 0, 4, 0, 0, 21, 2, 1];
const RING: &[u8] = &[0, 1, 0, 0, 0, 0, 0, 1, 0, 0, 0, 0, 0, 1, 0, 0, 0, 0, 0, 1, 1, 0, 0, 0, 0];
const CUT_RING: &[u8] = &[0, 1, 0, 0, 0, 0, 0, 1, 0, 0, 0, 0, 0, 1, 0, 0, 0, 0, 0, 1, 0, 0, 0, 0, 0];
/// For all x: for some x: x in r. The inner x counts, so that it says "some r".
const SHADOW: &[u8] = &[1, 0, 1, 2, 0, 1, 0, 0, 4, 1, 0, 0, 0, 0, 15, 2, 0, 0, 1, 0, 0, 21, 0, 1, 41, 0, 2, 40, 0, 3];
/// K9: a node that names itself.
const ITSELF: &[u8] = &[1, 0, 1, 2, 0, 0, 0, 4, 1, 0, 0, 0, 0, 6, 1, 0, 0, 22, 1, 0];

/// Answers worked out from the paper by hand.
const MARKED: [(&[u8], &[u8], Result<bool, u32>); 17] = [
    (SOME, &[0, 0], Ok(false)),
    (SOME, &[0, 1], Ok(true)),
    (AT_MOST_ONE, &[0, 0, 0, 0], Ok(true)),
    (EXACTLY_ONE, &[0, 0, 0, 0], Ok(false)),
    (CYCLES, RING, Ok(true)),
    (CYCLES, CUT_RING, Ok(false)),
    (SHADOW, &[0, 0], Ok(false)),
    (SHADOW, &[0, 1], Ok(true)),
    (SHADOW, &[1, 0], Ok(true)),
    (SOME, &[], Err(11)),
    (SOME, &[1], Err(11)),
    (SOME, &[1, 0, 0], Err(11)),
    (SOME, &[2, 0], Err(11)),
    (SOME, &[1, 255], Err(11)),
    (ITSELF, &[0, 1], Err(6)),
    (ITSELF, &[2], Err(6)),
    (&[], &[], Err(1)),
];

fn marked(bytes: &[u8], instance: &[u8], want: Result<bool, u32>) -> Result<(), String> {
    let asked = || format!("marked, instance {}, sheet {}", hex(instance), hex(bytes));
    agree(library::check(bytes, instance), want, asked)
}

/// The answers worked out by hand, also those for limited sorts; how many.
fn by_hand() -> Result<usize, String> {
    MARKED.iter().try_for_each(|&(bytes, instance, want)| marked(bytes, instance, want))?;
    let mut answers = MARKED.len() + NO_CELLS.len();
    for (sheet, yes, no) in checks() {
        yes.iter().try_for_each(|cells| marked(&sheet.bytes(), &digits(cells), Ok(true)))?;
        no.iter().try_for_each(|cells| marked(&sheet.bytes(), &digits(cells), Ok(false)))?;
        answers += yes.len() + no.len();
    }
    NO_CELLS.iter().try_for_each(|cells| marked(&some(130).bytes(), cells, Err(CELLS)))?;
    // 1,088 cells: all 0, a 1 of an atom that is no member, all 1, one byte more
    let (sheet, mut cells) = (largest(16, 2).bytes(), vec![0; 1_088]);
    marked(&sheet, &cells, Ok(true))?;
    cells[1_087] = 1;
    marked(&sheet, &cells, Ok(false))?;
    marked(&sheet, &[1; 1_088], Ok(false))?;
    marked(&sheet, &[0; 1_089], Err(CELLS))?;
    Ok(answers + 4)
}

pub fn run(run: &Run) -> Outcome {
    let (answers, mut met) = (by_hand()?, Met::nothing());
    for (case, sheet) in known().iter().enumerate() {
        let source = &mut Source::new(run.seed, "check known", case as u64);
        let instances = known_instances(source, sheet);
        met.sheet(&sheet.bytes(), &instances, case as u64)?;
    }
    for case in run.cases(1_500) {
        let source = &mut Source::new(run.seed, "check", case);
        let (bytes, instances) = if source.chance(1, 8) {
            (any(source), vec![instance(source, 4)])
        } else {
            let style = style(source);
            let sheet = some_sheet(source, style);
            (sheet.bytes(), some_instances(source, &sheet))
        };
        met.sheet(&bytes, &instances, case)?;
    }
    met.covered()?;
    Ok(format!("{answers} answers by hand, {}", met.said()))
}

/// What was compared.
struct Met {
    tally: [(&'static str, usize); 4],
    sheets: usize,
    whole: usize,
    limits: Limits,
    members: Members,
}

impl Met {
    fn nothing() -> Met {
        let tally = [("yes", 0), ("no", 0), ("number 11", 0), ("a refused sheet", 0)];
        Met { tally, sheets: 0, whole: 0, limits: Limits::nothing(), members: Members::nothing() }
    }

    /// A sheet with some instances.
    fn sheet(&mut self, bytes: &[u8], instances: &[Vec<u8>], case: u64) -> Result<(), String> {
        instances.iter().try_for_each(|instance| self.compare(bytes, instance, case))?;
        self.sheets += 1;
        if let Ok(sheet) = read(bytes) {
            self.limits.sheet(&sheet);
            self.whole += usize::from(has_all(&sheet, instances));
        }
        Ok(())
    }

    fn compare(&mut self, bytes: &[u8], instance: &[u8], case: u64) -> Result<(), String> {
        let want = check(bytes, instance);
        let at = match want {
            Ok(true) => 0,
            Ok(false) => 1,
            Err(11) => 2,
            Err(_) => 3,
        };
        self.tally[at].1 += 1;
        self.members.compared(bytes, instance, want);
        let asked = || format!("case {case}, instance {}, sheet {}", hex(instance), hex(bytes));
        agree(library::check(bytes, instance), want, asked)
    }

    fn covered(&self) -> Result<(), String> {
        covered(&self.tally, 100)?;
        covered(&[("a sheet with all its instances", self.whole)], 100)?;
        self.limits.covered(50, 0)?;
        covered(&self.members.0, 50)
    }

    fn said(&self) -> String {
        let Met { tally: [(_, yes), (_, no), (_, cells), (_, refused)], sheets, whole, limits, members } = self;
        let checks = yes + no + cells + refused;
        format!(
            "{checks} checks of {sheets} sheets agree, {whole} with all their instances: \
             {yes} yes, {no} no, {cells} number 11, {refused} other numbers; {}, {}",
            limits.said(),
            members.said()
        )
    }
}

/// How often each was met in sheets with a limited sort.
struct Members([(&'static str, usize); 6]);

impl Members {
    fn nothing() -> Members {
        let names = [
            "yes without some atom",
            "yes with an empty sort",
            "no",
            "no for a 1 of no member alone",
            "11 for a membership cell",
            "11 for another",
        ];
        Members(names.map(|name| (name, 0)))
    }

    fn compared(&mut self, bytes: &[u8], instance: &[u8], answer: Result<bool, u32>) {
        let Ok(sheet) = read(bytes) else { return };
        let members = sheet.memberships();
        if members == 0 {
            return;
        }
        let whole = instance.len() == sheet.cells();
        let met = match answer {
            Ok(true) => {
                [instance[..members].contains(&0), of_instance(&sheet, instance)[0], false, false, false, false]
            }
            Ok(false) => [false, false, true, only_outside(&sheet, instance), false, false],
            Err(_) => {
                let member = whole && instance[..members].iter().any(|&byte| byte > 1);
                [false, false, false, false, member, whole && !member]
            }
        };
        self.0.iter_mut().zip(met).for_each(|(what, met)| what.1 += usize::from(met));
    }

    fn said(&self) -> String {
        let times: Vec<String> = self.0.iter().map(|(what, times)| format!("{times} {what}")).collect();
        times.join(", ")
    }
}

/// Whether an instance satisfies but for 1s of atoms that are no members.
fn only_outside(sheet: &Sheet, instance: &[u8]) -> bool {
    let inside = within(sheet, instance.to_vec());
    inside != instance && check(&sheet.bytes(), &inside) == Ok(true)
}

/// Equations for each kind at each scope, and each pair of binders of one variable; also over limited sorts.
fn known() -> Vec<Sheet> {
    let equations = every_kind::scopes().chain(every_kind::limits()).flat_map(every_kind::equations);
    equations.chain(shadows::sheets(3)).chain(shadows::sheets(130)).collect()
}

/// Whether so many instances are all that a sheet has (and one bad one).
fn has_all(sheet: &Sheet, instances: &[Vec<u8>]) -> bool {
    sheet.cells() <= FEW && instances.len() >= 1 << sheet.cells()
}

/// All instances of a sheet with few cells; else solutions of its equation, and each with one cell changed.
fn known_instances(source: &mut Source, sheet: &Sheet) -> Vec<Vec<u8>> {
    if sheet.cells() <= FEW {
        return all(sheet.cells()).collect();
    }
    let mut instances = Vec::new();
    for _ in 0..4 {
        let solution = solution(source, sheet);
        let mut changed = solution.clone();
        changed[source.below(sheet.cells())] ^= 1;
        instances.extend(one_outside(source, sheet, solution.clone()));
        instances.extend([solution, changed]);
    }
    instances
}

/// Mostly a good sheet, at times with a record changed.
fn some_sheet(source: &mut Source, style: reference::random_sheet::Style) -> Sheet {
    let mut sheet = sheet(source, style);
    if source.chance(1, 10) {
        damage_records(source, &mut sheet);
    }
    sheet
}

/// Some of these within the scopes, some with one 1 of no member, some as they are.
fn limited_instances(source: &mut Source, sheet: &Sheet, instances: Vec<Vec<u8>>) -> Vec<Vec<u8>> {
    let mut some = Vec::new();
    for cells in instances {
        match source.below(8) {
            0 => some.push(cells),
            1..=2 => some.extend(one_outside(source, sheet, cells)),
            _ => some.push(within(sheet, cells)),
        }
    }
    some
}

/// All instances where there are few cells, else some; and a bad one.
fn some_instances(source: &mut Source, sheet: &Sheet) -> Vec<Vec<u8>> {
    let fits = read(&sheet.bytes()).is_ok();
    let cells = if fits { sheet.cells() } else { 4 };
    let mut instances: Vec<Vec<u8>> = if cells <= FEW {
        all(cells).collect()
    } else {
        let mut some: Vec<Vec<u8>> = (0..6).map(|_| instance(source, cells)).collect();
        some.extend([vec![0; cells], vec![1; cells]]);
        if fits && sheet.memberships() > 0 {
            some = limited_instances(source, sheet, some);
        }
        some
    };
    let mut bad = instance(source, cells);
    match source.below(6) {
        0 => bad.push(source.below(2) as u8),
        1 => drop(bad.pop()),
        2 => bad.clear(),
        3 => bad[source.pick(&[0, cells - 1])] = source.pick(&[2, 3, 255]),
        _ => bad[source.below(cells)] = source.pick(&[2, 3, 128, 255]),
    }
    instances.push(bad);
    instances
}
