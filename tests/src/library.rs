//! The Rattle library through its C boundary (crate `boundary_c`): the exported functions, and safe
//! calls of them whose answers have the form of the reference's. A slice passes as pointer and length.
//! The first field of an answer is a refusal's number, 0 where nothing is refused.

use reference::clauses::Size;
use reference::resume;
use reference::search::{Answer, End, Steps};

/// The answer behind a refusal's number.
fn unless<T>(refusal: u32, answer: T) -> Result<T, u32> {
    if refusal == 0 {
        Ok(answer)
    } else {
        Err(refusal)
    }
}

pub fn read(sheet: &[u8]) -> Result<(), u32> {
    extern "C" {
        fn fawnloom_read(sheet: *const u8, length: usize) -> u32;
    }
    unless(unsafe { fawnloom_read(sheet.as_ptr(), sheet.len()) }, ())
}

#[repr(C)]
struct CheckAnswer {
    refusal: u32,
    satisfies: u32,
}

pub fn check(sheet: &[u8], instance: &[u8]) -> Result<bool, u32> {
    extern "C" {
        fn fawnloom_check(sheet: *const u8, length: usize, instance: *const u8, cells: usize) -> CheckAnswer;
    }
    let answer = unsafe { fawnloom_check(sheet.as_ptr(), sheet.len(), instance.as_ptr(), instance.len()) };
    unless(answer.refusal, answer.satisfies == 1)
}

#[repr(C)]
struct CountAnswer {
    refusal: u32,
    variables: usize,
    clauses: usize,
    words: usize,
}

impl CountAnswer {
    fn size(self) -> Result<Size, u32> {
        let (variables, clauses, words) = (self.variables as u32, self.clauses as u32, self.words as u32);
        unless(self.refusal, Size { variables, clauses, words })
    }
}

pub fn count(sheet: &[u8]) -> Result<Size, u32> {
    extern "C" {
        fn fawnloom_count(sheet: *const u8, length: usize) -> CountAnswer;
    }
    unsafe { fawnloom_count(sheet.as_ptr(), sheet.len()) }.size()
}

pub fn write(sheet: &[u8], list: &mut [i32]) -> Result<Size, u32> {
    extern "C" {
        fn fawnloom_write(sheet: *const u8, length: usize, list: *mut i32, words: usize) -> CountAnswer;
    }
    unsafe { fawnloom_write(sheet.as_ptr(), sheet.len(), list.as_mut_ptr(), list.len()) }.size()
}

/// The end is 1 found, 2 none, 3 spent; under a refusal all else is 0. Forces, choices and turns are called propagations,
/// decisions and backtracks there.
#[repr(C)]
struct SearchAnswer {
    refusal: u32,
    end: u32,
    propagations: u64,
    decisions: u64,
    backtracks: u64,
}

impl SearchAnswer {
    fn answer(self) -> Result<Answer, u32> {
        let steps = Steps { forces: self.propagations, choices: self.decisions, turns: self.backtracks };
        let end = match (self.refusal, self.end) {
            (0, 1) => End::Found,
            (0, 2) => End::None,
            (0, 3) => End::Spent,
            (0, end) => panic!("no end: {end}"),
            (refusal, 0) if steps == Steps::default() => return Err(refusal),
            (refusal, end) => panic!("refused {refusal} with end {end} and {steps:?}"),
        };
        Ok(Answer { end, steps })
    }
}

pub fn search(list: &[i32], v: u32, values: &mut [u8], trail: &mut [i32], budget: u64) -> Result<Answer, u32> {
    extern "C" {
        fn fawnloom_search(
            list: *const i32,
            words: usize,
            v: u32,
            values: *mut u8,
            values_length: usize,
            trail: *mut i32,
            trail_length: usize,
            budget: u64,
        ) -> SearchAnswer;
    }
    let (list, words) = (list.as_ptr(), list.len());
    let (values, values_length) = (values.as_mut_ptr(), values.len());
    let (trail, trail_length) = (trail.as_mut_ptr(), trail.len());
    unsafe { fawnloom_search(list, words, v, values, values_length, trail, trail_length, budget) }.answer()
}

/// The record of a stopped search, which is lent by its address.
#[repr(C)]
struct Position {
    length: usize,
    propagations: u64,
    decisions: u64,
    backtracks: u64,
}

impl Position {
    fn of(resume::Position { length, steps }: resume::Position) -> Position {
        let Steps { forces: propagations, choices: decisions, turns: backtracks } = steps;
        Position { length, propagations, decisions, backtracks }
    }

    fn position(self) -> resume::Position {
        let steps = Steps { forces: self.propagations, choices: self.decisions, turns: self.backtracks };
        resume::Position { length: self.length, steps }
    }
}

/// A call that takes a search up: list and words, v, values, trail, the record, the budget.
type TakeUp =
    unsafe extern "C" fn(*const i32, usize, u32, *mut u8, usize, *mut i32, usize, *mut Position, u64) -> SearchAnswer;

extern "C" {
    fn fawnloom_resume(
        list: *const i32,
        words: usize,
        v: u32,
        values: *mut u8,
        values_length: usize,
        trail: *mut i32,
        trail_length: usize,
        position: *mut Position,
        budget: u64,
    ) -> SearchAnswer;

    fn fawnloom_next(
        list: *const i32,
        words: usize,
        v: u32,
        values: *mut u8,
        values_length: usize,
        trail: *mut i32,
        trail_length: usize,
        position: *mut Position,
        budget: u64,
    ) -> SearchAnswer;
}

fn take_up(
    call: TakeUp,
    (list, v): (&[i32], u32),
    (values, trail): (&mut [u8], &mut [i32]),
    position: &mut resume::Position,
    budget: u64,
) -> Result<Answer, u32> {
    let (list, words) = (list.as_ptr(), list.len());
    let (values, values_length) = (values.as_mut_ptr(), values.len());
    let (trail, trail_length) = (trail.as_mut_ptr(), trail.len());
    let mut lent = Position::of(*position);
    let answer = unsafe { call(list, words, v, values, values_length, trail, trail_length, &mut lent, budget) };
    *position = lent.position();
    answer.answer()
}

pub fn resume(
    list: &[i32],
    v: u32,
    values: &mut [u8],
    trail: &mut [i32],
    position: &mut resume::Position,
    budget: u64,
) -> Result<Answer, u32> {
    take_up(fawnloom_resume, (list, v), (values, trail), position, budget)
}

/// After "found" the next.
pub fn next(
    list: &[i32],
    v: u32,
    values: &mut [u8],
    trail: &mut [i32],
    position: &mut resume::Position,
    budget: u64,
) -> Result<Answer, u32> {
    take_up(fawnloom_next, (list, v), (values, trail), position, budget)
}

#[repr(C)]
struct TextAnswer {
    refusal: u32,
    bytes: usize,
}

pub fn text_size(list: &[i32], v: u32) -> Result<u64, u32> {
    extern "C" {
        fn fawnloom_text_size(list: *const i32, words: usize, v: u32) -> TextAnswer;
    }
    let answer = unsafe { fawnloom_text_size(list.as_ptr(), list.len(), v) };
    unless(answer.refusal, answer.bytes as u64)
}

pub fn text(list: &[i32], v: u32, text: &mut [u8]) -> Result<u64, u32> {
    extern "C" {
        fn fawnloom_text(list: *const i32, words: usize, v: u32, text: *mut u8, length: usize) -> TextAnswer;
    }
    let answer = unsafe { fawnloom_text(list.as_ptr(), list.len(), v, text.as_mut_ptr(), text.len()) };
    unless(answer.refusal, answer.bytes as u64)
}

#[repr(C)]
struct ReadBackAnswer {
    refusal: u32,
    cells: usize,
}

/// The cells copied.
pub fn read_back(sheet: &[u8], values: &[u8], instance: &mut [u8]) -> Result<usize, u32> {
    extern "C" {
        fn fawnloom_read_back(
            sheet: *const u8,
            length: usize,
            values: *const u8,
            values_length: usize,
            instance: *mut u8,
            cells: usize,
        ) -> ReadBackAnswer;
    }
    let (sheet, length) = (sheet.as_ptr(), sheet.len());
    let (values, values_length) = (values.as_ptr(), values.len());
    let (instance, cells) = (instance.as_mut_ptr(), instance.len());
    let answer = unsafe { fawnloom_read_back(sheet, length, values, values_length, instance, cells) };
    unless(answer.refusal, answer.cells)
}

pub fn find(
    sheet: &[u8],
    list: &mut [i32],
    values: &mut [u8],
    trail: &mut [i32],
    instance: &mut [u8],
    budget: u64,
) -> Result<Answer, u32> {
    extern "C" {
        fn fawnloom_find(
            sheet: *const u8,
            length: usize,
            list: *mut i32,
            words: usize,
            values: *mut u8,
            values_length: usize,
            trail: *mut i32,
            trail_length: usize,
            instance: *mut u8,
            cells: usize,
            budget: u64,
        ) -> SearchAnswer;
    }
    let (sheet, length) = (sheet.as_ptr(), sheet.len());
    let (list, words) = (list.as_mut_ptr(), list.len());
    let (values, values_length) = (values.as_mut_ptr(), values.len());
    let (trail, trail_length) = (trail.as_mut_ptr(), trail.len());
    let (instance, cells) = (instance.as_mut_ptr(), instance.len());
    let found = unsafe {
        fawnloom_find(sheet, length, list, words, values, values_length, trail, trail_length, instance, cells, budget)
    };
    found.answer()
}
