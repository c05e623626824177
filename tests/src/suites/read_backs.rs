//! Read-back of random values, a 3 among them, and of bytes that no value has, in the cells and outside of them.

use super::solve::{figures, length};
use super::{agree, hex};
use reference::finder::read_back;
use reference::limits::some;
use reference::random::Source;
use reference::sheet::CELLS;

/// By hand: K1 has the cells 2 and 3. A 3 is read as 0; a 2, and what is above 3, is refused there and nowhere else.
pub fn marked() -> Result<(), String> {
    let k1 = [1, 0, 1, 2, 0, 0, 0, 4, 1, 0, 0, 0, 0, 6, 1, 0, 0, 22, 0, 0];
    let cases: [(&[u8], Result<usize, u32>, [u8; 3]); 9] = [
        (&[1, 0, 1, 1], Ok(2), [0, 1, 9]),
        (&[1, 3, 1, 1], Ok(2), [0, 1, 9]),
        (&[1, 1, 3, 1], Ok(2), [1, 0, 9]),
        (&[3, 3, 3, 3], Ok(2), [0, 0, 9]),
        (&[2, 3, 1, 255], Ok(2), [0, 1, 9]),
        (&[1, 2, 1, 1], Err(11), [9; 3]),
        (&[1, 3, 4, 1], Err(11), [9; 3]),
        (&[1, 255, 3, 1], Err(11), [9; 3]),
        (&[1, 3, 3], Err(11), [9; 3]),
    ];
    for (values, want, left) in cases {
        let mut instance = [9; 3];
        let got = library::read_back(&k1, values, &mut instance);
        agree((got, instance), (want, left), || format!("marked, read-back of {}", hex(values)))?;
    }
    limited()
}

/// K1 of up to two atoms has the cells 2 to 5, of which 2 and 3 are the members. What is read back need not be an
/// instance.
fn limited() -> Result<(), String> {
    let cases: [(&[u8], Result<usize, u32>, [u8; 5]); 6] = [
        (&[1, 0, 1, 0, 1, 1], Ok(4), [0, 1, 0, 1, 9]),
        (&[1, 3, 1, 3, 1, 1], Ok(4), [0, 1, 0, 1, 9]),
        (&[1, 3, 3, 1, 1, 7], Ok(4), [0, 0, 1, 1, 9]),
        (&[1, 2, 1, 0, 1, 1], Err(11), [9; 5]),
        (&[1, 0, 4, 0, 1, 1], Err(11), [9; 5]),
        (&[1, 0, 1, 1], Err(11), [9; 5]),
    ];
    for (values, want, left) in cases {
        let mut instance = [9; 5];
        let got = library::read_back(&some(130).bytes(), values, &mut instance);
        agree((got, instance), (want, left), || format!("marked, limited, read-back of {}", hex(values)))?;
    }
    Ok(())
}

/// How often each was met.
pub struct ReadBacks([(&'static str, usize); 6]);

impl ReadBacks {
    pub fn nothing() -> ReadBacks {
        let names =
            ["copied", "with a 3", "with anything outside", "refused for a 2", "for more than 3", "for other reasons"];
        ReadBacks(names.map(|name| (name, 0)))
    }

    /// Both sides over slices with a known filling.
    pub fn compare(&mut self, source: &mut Source, bytes: &[u8], case: u64) -> Result<(), String> {
        let cells = figures(bytes).2;
        let values = some_values(source, bytes);
        let mut instance = vec![9; length(source, cells)];
        let mut instance2 = instance.clone();
        let want = read_back(bytes, &values, &mut instance);
        let got = library::read_back(bytes, &values, &mut instance2);
        let asked = || format!("case {case}, read-back of {}, sheet {}", hex(&values), hex(bytes));
        agree(got, want, asked)?;
        agree(instance2, instance, asked)?;
        self.met(want, &values, cells).into_iter().for_each(|place| self.0[place].1 += 1);
        Ok(())
    }

    fn met(&self, answer: Result<usize, u32>, values: &[u8], cells: usize) -> Vec<usize> {
        let of_cells: Vec<u8> = values.iter().copied().skip(1).take(cells).collect();
        let outside = values.iter().take(1).chain(values.iter().skip(1 + cells));
        match answer {
            Ok(_) => {
                let (three, any) = (of_cells.contains(&3), outside.into_iter().any(|&value| value > 1));
                [(true, 0), (three, 1), (any, 2)].into_iter().filter(|(met, _)| *met).map(|(_, place)| place).collect()
            }
            Err(CELLS) if of_cells.contains(&2) => vec![3],
            Err(CELLS) if of_cells.iter().any(|&value| value > 3) => vec![4],
            Err(_) => vec![5],
        }
    }

    pub fn covered(&self, enough: usize) -> Result<(), String> {
        super::covered(&self.0, enough)
    }

    pub fn said(&self) -> String {
        let times: Vec<String> = self.0.iter().map(|(what, times)| format!("{times} {what}")).collect();
        times.join(", ")
    }
}

/// Values of each variable, in half of them a 3 too; with one thing wrong, or with anything where nothing is asked.
fn some_values(source: &mut Source, bytes: &[u8]) -> Vec<u8> {
    let (_, variables, cells) = figures(bytes);
    let bytes_of_values: &[u8] = source.pick(&[&[0, 1][..], &[0, 1, 3]]);
    let mut values: Vec<u8> = (0..variables).map(|_| source.pick(bytes_of_values)).collect();
    match source.below(8) {
        0 => values.push(1),
        1 => drop(values.pop()),
        2 => values[1 + source.below(cells)] = 2,
        3 => values[1 + source.below(cells)] = source.pick(&[4, 5, 7, 128, 255]),
        4 => values.iter_mut().skip(1 + cells).for_each(|value| *value = source.byte()),
        5 => values[0] = source.byte(),
        _ => {}
    }
    values
}
