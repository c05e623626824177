//! `./find` and `./cnf`: the status of the program is theirs, and a refusal is said in words.

use super::{agree, hex};
use reference::clauses::count;
use reference::deep::sheets;
use reference::random_sheet::{gates_of, walk_of};
use std::fs::File;
use std::process::{Command, Stdio};

/// What a command prints and says, and its status.
type Answer = (String, String, Option<i32>);

fn command(name: &str, sheet: &[u8], file: &str) -> Result<Answer, String> {
    std::fs::write(file, sheet).map_err(|error| error.to_string())?;
    let output = Command::new(format!("./{name}")).arg(file).output().map_err(|error| error.to_string())?;
    let text = |bytes| String::from_utf8_lossy(bytes).to_string();
    Ok((text(&output.stdout), text(&output.stderr), output.status.code()))
}

/// A sheet for each number that a program can print, and a word of its row.
fn refused() -> Vec<(u32, &'static str, Vec<u8>)> {
    let k1 = [1, 0, 1, 2, 0, 0, 0, 4, 1, 0, 0, 0, 0, 6, 1, 0, 0, 22, 0, 0];
    let with = |at: usize, byte: u8| {
        let mut bytes = k1.to_vec();
        bytes[at] = byte;
        bytes
    };
    let union = sheets().into_iter().find(|(name, _)| *name == "union").expect("a sheet").1;
    vec![
        (1, "VERSION", vec![]),
        (2, "LENGTH", k1[..19].to_vec()),
        (2, "more than 4,096 bytes", vec![1; 4_097]),
        (3, "COUNT", vec![1, 0, 0, 0, 0, 0, 0, 0, 0]),
        (4, "SCOPE", with(3, 9)),
        (5, "DECLARATION", with(8, 3)),
        (6, "NODE", with(14, 99)),
        (7, "SHAPE", with(17, 30)),
        (8, "ROOT", k1[..17].iter().enumerate().map(|(at, &byte)| if at == 13 { 3 } else { byte }).collect()),
        (9, "WALK", walk_of(1_000_001).bytes()),
        (10, "SIZE", gates_of(16_000).bytes()),
        (13, "./cnf", union.bytes()),
    ]
}

/// The number of commands that were tried.
pub fn run() -> Result<String, String> {
    let file = "target/tests/sheet";
    let refused = refused();
    for (number, word, sheet) in &refused {
        let (printed, said, status) = command("find", sheet, file)?;
        let asked = || format!("./find, sheet {}", hex(sheet));
        agree((printed.as_str(), status), (format!("refused {number}\n").as_str(), Some(0)), asked)?;
        agree(said.contains(word) && said.contains(&format!("refused {number}, ")), true, || {
            format!("{}: {said}", asked())
        })?;
    }
    let long = &refused[11].2;
    let words = count(long).map_err(|number| format!("{number}"))?.words;
    let (_, said, _) = command("find", long, file)?;
    agree(said.contains(&format!("{words} words, and there is room for 16384")), true, || format!("./find: {said}"))?;
    let (printed, said, status) = command("cnf", long, file)?;
    agree((&printed[..6], said.as_str(), status), ("p cnf ", "", Some(0)), || "./cnf".to_string())?;
    let full = File::options().write(true).open("/dev/full").map_err(|error| error.to_string())?;
    let mut find = Command::new("./find");
    let status = find.arg(file).stdout(full).stderr(Stdio::null()).status().map_err(|error| error.to_string())?;
    agree(status.success(), false, || "./find on a full device".to_string())?;
    Ok(format!("{} refusals in words", refused.len()))
}
