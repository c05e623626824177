//! Clause text in Rust, by the algorithm of the library: number 12 over the list, one pass that counts clauses and bytes, and one
//! that puts the text. Numbers are counted and put digit by digit.

use crate::best;
use reference::random::Source;
use std::hint::black_box;
use std::time::Duration;

/// A list with its number of variables.
pub type List = (Vec<i32>, u32);

/// Whether number 12 lets a list pass.
fn is_list(list: &[i32], v: u32) -> bool {
    if v < 1 || v > 16_000 || list.len() > i32::MAX as usize {
        return false;
    }
    let mut at = 0;
    while at < list.len() {
        let count = list[at];
        if count < 1 || count as usize > list.len() - at - 1 {
            return false;
        }
        let end = at + 1 + count as usize;
        if list[at + 1..end].iter().any(|&literal| literal == 0 || literal.unsigned_abs() > v) {
            return false;
        }
        at = end;
    }
    true
}

fn digits(mut number: usize) -> usize {
    let mut digits = 1;
    while number > 9 {
        number /= 10;
        digits += 1;
    }
    digits
}

/// The clauses and the text's bytes, or number 12.
fn counted(list: &[i32], v: u32) -> Result<(usize, usize), u32> {
    if !is_list(list, v) {
        return Err(12);
    }
    let (mut at, mut clauses, mut bytes) = (0, 0, 0);
    while at < list.len() {
        let end = at + 1 + list[at] as usize;
        for &literal in &list[at + 1..end] {
            bytes += usize::from(literal < 0) + digits(literal.unsigned_abs() as usize) + 1;
        }
        bytes += 2;
        clauses += 1;
        at = end;
    }
    Ok((clauses, 6 + digits(v as usize) + 1 + digits(clauses) + 1 + bytes))
}

fn size(list: &[i32], v: u32) -> Result<u64, u32> {
    Ok(counted(list, v)?.1 as u64)
}

fn put_number(text: &mut [u8], at: usize, mut number: usize) -> usize {
    let end = at + digits(number);
    for place in text[at..end].iter_mut().rev() {
        *place = b'0' + (number % 10) as u8;
        number /= 10;
    }
    end
}

fn put_clause(text: &mut [u8], mut at: usize, clause: &[i32]) -> usize {
    for &literal in clause {
        if literal < 0 {
            text[at] = b'-';
            at += 1;
        }
        at = put_number(text, at, literal.unsigned_abs() as usize);
        text[at] = b' ';
        at += 1;
    }
    text[at..at + 2].copy_from_slice(b"0\n");
    at + 2
}

fn write(list: &[i32], v: u32, text: &mut [u8]) -> Result<u64, u32> {
    let (clauses, bytes) = counted(list, v)?;
    if text.len() < bytes {
        return Err(13);
    }
    text[..6].copy_from_slice(b"p cnf ");
    let space = put_number(text, 6, v as usize);
    text[space] = b' ';
    let feed = put_number(text, space + 1, clauses);
    text[feed] = b'\n';
    let (mut end, mut at) = (feed + 1, 0);
    while at < list.len() {
        let next = at + 1 + list[at] as usize;
        end = put_clause(text, end, &list[at + 1..next]);
        at = next;
    }
    Ok(end as u64)
}

/// A list of about so many words: clauses of one to five literals over 16,000 variables.
pub fn random_list(words: usize, seed: u64) -> List {
    let source = &mut Source::new(seed, "text", 0);
    let mut list = Vec::new();
    while list.len() < words {
        let count = source.between(1, 5);
        list.push(count as i32);
        for _ in 0..count {
            let variable = source.between(1, 16_000) as i32;
            list.push(source.pick(&[variable, -variable]));
        }
    }
    (list, 16_000)
}

/// Both sides give the reference's length and text, and refuse one byte less.
fn hold(list: &[i32], v: u32) {
    let want = reference::dimacs::text(list, v).expect("a good list");
    let bytes = want.len() as u64;
    assert_eq!((library::text_size(list, v), size(list, v)), (Ok(bytes), Ok(bytes)));
    for text in [library::text, write] {
        let mut out = vec![0; want.len()];
        assert_eq!(text(list, v, &mut out), Ok(bytes));
        assert!(out == want.as_bytes());
        assert_eq!(text(list, v, &mut out[1..]), Err(13));
    }
}

/// Sizing and writing of all lists, for each word of them. Short lists are gone through several times in a round.
pub fn texts(what: &str, lists: &[List]) {
    lists.iter().for_each(|(list, v)| hold(list, *v));
    let words: usize = lists.iter().map(|(list, _)| list.len()).sum();
    let times = (1_000_000 / words).max(1);
    let each = |run: &mut dyn FnMut(&[i32], u32) -> Result<u64, u32>| {
        for (list, v) in std::iter::repeat_n(lists, times).flatten() {
            let _ = black_box(run(black_box(list), *v));
        }
    };
    let sizing = best(|| each(&mut library::text_size), || each(&mut size));
    let longest = lists.iter().map(|(list, v)| size(list, *v).expect("a good list")).max().unwrap_or(0);
    let (mut text, mut text2) = (vec![0; longest as usize], vec![0; longest as usize]);
    let writing = best(
        || each(&mut |list, v| library::text(list, v, black_box(&mut text))),
        || each(&mut |list, v| write(list, v, black_box(&mut text2))),
    );
    print(&format!("length of the text of {what}"), words, times, sizing);
    print(&format!("text of {what}"), words, times, writing);
}

fn print(what: &str, words: usize, times: usize, (library, rust): (Duration, Duration)) {
    let each = |time: Duration| time.as_secs_f64() * 1e9 / (words * times) as f64;
    let (library, rust) = (each(library), each(rust));
    println!(
        "{what}: {words} words, library {library:.2} ns each, Rust {rust:.2} ns each, ratio {:.2}",
        library / rust
    );
}
