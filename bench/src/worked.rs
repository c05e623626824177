//! The worked sheets of `examples/` by the rule of OR before Change 2, and by the rule now: the lists, and the library's search
//! over both.

use crate::translation::{plain, translate};
use crate::{best, BUDGET};
use reference::clauses::Size;
use reference::search::Answer;
use reference::sheet::{read, Sheet};
use std::hint::black_box;

/// A list, and what a search of it needs.
struct Listed {
    size: Size,
    words: Vec<i32>,
    values: Vec<u8>,
    trail: Vec<i32>,
}

impl Listed {
    fn new(sheet: &Sheet, translate: fn(&Sheet, &mut [i32]) -> Result<Size, u32>) -> Listed {
        let size = translate(sheet, &mut []).expect("a list");
        let mut words = vec![0; size.words as usize];
        let _ = translate(sheet, &mut words);
        let v = size.variables as usize;
        Listed { size, words, values: vec![0; v], trail: vec![0; v] }
    }

    fn search(&mut self) -> Answer {
        library::search(&self.words, self.size.variables, &mut self.values, &mut self.trail, BUDGET)
            .expect("a good list")
    }
}

/// The examples without limited sorts, in the order of their names.
pub fn examples() -> Vec<(String, Sheet)> {
    let files = std::fs::read_dir("examples").expect("the examples").map(|file| file.expect("a file").path());
    let mut texts: Vec<_> = files.filter(|file| file.extension().is_some_and(|end| end == "hex")).collect();
    texts.sort();
    let name = |file: &std::path::PathBuf| file.file_stem().expect("a name").to_string_lossy().into_owned();
    let sheets = texts.iter().map(|file| (name(file), read(&bytes(file)).expect("an accepted sheet")));
    sheets.filter(|(_, sheet)| sheet.memberships() == 0).collect()
}

/// The bytes of a text of hexadecimal digits; from # to the end of the line is a comment.
fn bytes(file: &std::path::Path) -> Vec<u8> {
    let text = std::fs::read_to_string(file).expect("a text");
    let digits =
        text.lines().flat_map(|line| line.split('#').next()).flat_map(str::chars).filter_map(|c| c.to_digit(16));
    let digits: Vec<u8> = digits.map(|digit| digit as u8).collect();
    digits.chunks(2).map(|pair| 16 * pair[0] + pair[1]).collect()
}

/// A line for each example: variables, words, end and steps before and now, and the times of the searches.
pub fn table() {
    for (name, sheet) in examples() {
        let (mut before, mut now) = (Listed::new(&sheet, plain), Listed::new(&sheet, translate));
        assert_eq!(library::count(&sheet.bytes()), Ok(now.size));
        let shown = |listed: &mut Listed| {
            let Answer { end, steps } = listed.search();
            let Size { variables, words, .. } = listed.size;
            format!("{variables} variables, {words} words, {end:?} after {} steps", steps.sum())
        };
        let (was, is) = (shown(&mut before), shown(&mut now));
        let (new, old) = best(
            || {
                black_box(now.search());
            },
            || {
                black_box(before.search());
            },
        );
        let (new, old) = (new.as_secs_f64() * 1e6, old.as_secs_f64() * 1e6);
        println!("{name}: before {was}; now {is}; search {new:.1} µs, before {old:.1} µs, ratio {:.2}", new / old);
    }
}
