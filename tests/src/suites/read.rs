//! Reading: the library's number for random and damaged sheets, for each kind over each pair of operands, for each
//! scope byte, and for every change of one byte in a few sheets.

use super::limits::Limits;
use super::{agree, covered, hex};
use crate::{Outcome, Run};
use reference::every_kind;
use reference::limits::{eight_walks, some};
use reference::random::Source;
use reference::random_damage::any;
use reference::random_sheet::{sheet, SMALL};
use reference::sheet::{read, SCOPE};

const WORDS: [&str; 10] = [
    "an accepted sheet",
    "number 1",
    "number 2",
    "number 3",
    "number 4",
    "number 5",
    "number 6",
    "number 7",
    "number 8",
    "number 9",
];

/// K1, K8 with both scopes, K9, K10, and K7 last: the sheet, and the number that the paper gives it.
const MARKED: [(&[u8], u32); 6] = [
    (&[1, 0, 1, 2, 0, 0, 0, 4, 1, 0, 0, 0, 0, 6, 1, 0, 0, 22, 0, 0], 0),
    (&[1, 0, 1, 8, 0, 0, 0, 4, 1, 0, 0, 0, 0, 6, 1, 0, 0, 22, 0, 0], 0),
    (&[1, 0, 1, 9, 0, 0, 0, 4, 1, 0, 0, 0, 0, 6, 1, 0, 0, 22, 0, 0], 4),
    (&[1, 0, 1, 2, 0, 0, 0, 4, 1, 0, 0, 0, 0, 6, 1, 0, 0, 22, 1, 0], 6),
    (&[1, 0, 1, 2, 0, 0, 0, 4, 1, 0, 0, 0, 0, 9, 1, 0, 0, 8, 0, 0, 22, 1, 0], 7),
    (&[], 1),
];

/// Scope bytes, of which 1 to 8 and 129 to 136 are taken.
const SCOPES: [(&str, std::ops::RangeInclusive<u8>); 6] = [
    ("scope byte 0", 0..=0),
    ("scope byte 9", 9..=9),
    ("scope byte 10 to 127", 10..=127),
    ("scope byte 128", 128..=128),
    ("scope byte 137", 137..=137),
    ("scope byte 138 to 255", 138..=255),
];

/// K1 with each scope byte, and visits by the upper number.
fn scopes() -> Result<(), String> {
    for scope in 0..=255 {
        let bytes = some(scope).bytes();
        let taken = (1..=8).contains(&scope) || (129..=136).contains(&scope);
        let number = if taken { 0 } else { 4 };
        agree(library::read(&bytes).err().unwrap_or(0), number, || format!("marked sheet {}", hex(&bytes)))?;
    }
    // 999,993 visits and 1,000,001
    for (visits, number) in [(124_999, 0), (125_000, 9)] {
        let bytes = eight_walks(visits).bytes();
        agree(library::read(&bytes).err().unwrap_or(0), number, || format!("marked sheet {}", hex(&bytes)))?;
    }
    Ok(())
}

/// How often each scope byte that is not taken was the one for which a sheet is refused.
type Refused = [(&'static str, usize); SCOPES.len()];

/// Counts the scope bytes of a sheet that number 4 refuses.
fn refused_scopes(bytes: &[u8], refused: &mut Refused) {
    let scopes = &bytes[3..3 + bytes[2] as usize];
    for ((_, range), (_, times)) in SCOPES.iter().zip(refused) {
        *times += usize::from(scopes.iter().any(|scope| range.contains(scope)));
    }
}

pub fn run(run: &Run) -> Outcome {
    for (bytes, number) in MARKED {
        agree(library::read(bytes).err().unwrap_or(0), number, || format!("marked sheet {}", hex(bytes)))?;
    }
    scopes()?;
    let mut met = Met::nothing();
    for case in run.cases(20_000) {
        met.compare(&any(&mut Source::new(run.seed, "read", case)), case)?;
    }
    for scopes in [[2, 3], [130, 131]] {
        for (case, sheet) in every_kind::trials(scopes).iter().enumerate() {
            met.compare(&sheet.bytes(), case as u64)?;
        }
    }
    for case in run.cases(2) {
        let bytes = sheet(&mut Source::new(run.seed, "read bytes", case), SMALL).bytes();
        for at in 0..bytes.len() {
            for value in 0..=255 {
                let mut changed = bytes.clone();
                changed[at] = value;
                met.compare(&changed, case)?;
            }
        }
        (0..bytes.len()).try_for_each(|length| met.compare(&bytes[..length], case))?;
    }
    met.covered()?;
    Ok(met.said())
}

/// What was compared.
struct Met {
    tally: [(&'static str, usize); WORDS.len()],
    refused: Refused,
    limits: Limits,
}

impl Met {
    fn nothing() -> Met {
        let (tally, refused) = (WORDS.map(|word| (word, 0)), SCOPES.map(|(name, _)| (name, 0)));
        Met { tally, refused, limits: Limits::nothing() }
    }

    fn compare(&mut self, bytes: &[u8], case: u64) -> Result<(), String> {
        let want = read(bytes);
        self.tally[want.as_ref().err().map_or(0, |&number| number as usize)].1 += 1;
        match &want {
            Ok(sheet) => self.limits.sheet(sheet),
            Err(SCOPE) => refused_scopes(bytes, &mut self.refused),
            Err(_) => {}
        }
        agree(library::read(bytes), want.map(drop), || format!("case {case}, sheet {}", hex(bytes)))
    }

    fn covered(&self) -> Result<(), String> {
        covered(&self.tally, 200)?;
        covered(&self.refused, 20)?;
        self.limits.covered(100, 0)
    }

    fn said(&self) -> String {
        let times: Vec<String> = self.tally.iter().map(|(_, times)| times.to_string()).collect();
        let all: usize = self.tally.iter().map(|(_, times)| times).sum();
        let scopes: Vec<String> = self.refused.iter().map(|(what, times)| format!("{times} {what}")).collect();
        let (times, scopes) = (times.join(" "), scopes.join(", "));
        format!("{all} sheets agree, by answer 0 to 9: {times}; refused for {scopes}; {}", self.limits.said())
    }
}
