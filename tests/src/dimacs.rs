//! Clause text in the DIMACS CNF format, and a strict reader of it (document 01, numbers 12 and 13; document 02, Change 4).

use crate::search::cut;
use crate::sheet::SHORT;

/// The text of a list, or number 12.
pub fn text(list: &[i32], v: u32) -> Result<String, u32> {
    let clauses = cut(list, v)?;
    let mut text = format!("p cnf {} {}\n", v, clauses.len());
    for clause in clauses {
        for literal in clause {
            text += &format!("{literal} ");
        }
        text += "0\n";
    }
    Ok(text)
}

/// The sizing call: number 12, else the text's length.
pub fn size(list: &[i32], v: u32) -> Result<u64, u32> {
    Ok(text(list, v)?.len() as u64)
}

/// The text call: numbers 12 and 13, else the bytes written at the front of the slice.
pub fn write(list: &[i32], v: u32, out: &mut [u8]) -> Result<u64, u32> {
    put(&text(list, v)?, out)
}

/// A text to the front of a slice: number 13 where the slice is shorter than it.
pub fn put(text: &str, out: &mut [u8]) -> Result<u64, u32> {
    let front = out.get_mut(..text.len()).ok_or(SHORT)?;
    front.copy_from_slice(text.as_bytes());
    Ok(text.len() as u64)
}

/// Reads a text back: its variables and clauses, or what is wrong with it. Nothing is let through:
/// one heading line, one clause to a line, single spaces, a closing 0, a closing line feed, the counts kept.
pub fn parse(text: &[u8]) -> Result<(u32, Vec<Vec<i32>>), String> {
    let text = std::str::from_utf8(text).map_err(|error| error.to_string())?;
    let lines: Vec<&str> = text.strip_suffix('\n').ok_or("no closing line feed")?.split('\n').collect();
    let heading = lines[0].strip_prefix("p cnf ").ok_or("no heading")?;
    let (v, count) = heading.split_once(' ').ok_or("no two counts")?;
    let (v, count) = (number(v)?, number(count)?);
    let mut clauses = Vec::new();
    for line in &lines[1..] {
        let mut literals = line.split(' ').map(number).collect::<Result<Vec<i32>, String>>()?;
        if literals.pop() != Some(0) {
            return Err(format!("no closing 0: {line}"));
        }
        if literals.iter().any(|&literal| literal == 0 || literal.abs() > v) {
            return Err(format!("a literal 0 or beyond {v}: {line}"));
        }
        clauses.push(literals);
    }
    if clauses.len() != count as usize {
        return Err(format!("{} clauses under a heading of {count}", clauses.len()));
    }
    Ok((v as u32, clauses))
}

/// A number without plus, leading zero or -0.
fn number(word: &str) -> Result<i32, String> {
    let value: i32 = word.parse().map_err(|_| format!("no number: {word:?}"))?;
    if value.to_string() == word {
        Ok(value)
    } else {
        Err(format!("not the short form: {word:?}"))
    }
}
