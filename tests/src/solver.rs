//! Off-the-shelf solvers, run on a clause text.

use std::process::Command;

#[derive(Clone, Debug, PartialEq, Eq)]
pub enum Verdict {
    /// With a value for each variable.
    Satisfiable(Vec<u8>),
    Unsatisfiable,
}

impl Verdict {
    pub fn is_satisfiable(&self) -> bool {
        *self != Verdict::Unsatisfiable
    }
}

pub const SOLVERS: [&str; 3] = ["minisat", "cadical", "picosat"];

/// The folder for the texts: that of this program.
fn folder() -> std::path::PathBuf {
    let program = std::env::current_exe().expect("this program's path");
    program.parent().expect("its folder").to_path_buf()
}

/// Runs a solver on a clause text of v variables; any complaint of it about the text is an error.
pub fn solve(solver: &str, text: &[u8], v: u32) -> Result<Verdict, String> {
    // a name of its own, so that two runs at a time do not meet
    let file = |end: &str| folder().join(format!("{solver}-{}.{end}", std::process::id()));
    let (input, output) = (file("cnf"), file("out"));
    std::fs::write(&input, text).map_err(|error| error.to_string())?;
    let mut command = Command::new(solver);
    match solver {
        "minisat" => command.args(["-verb=1".as_ref(), input.as_os_str(), output.as_os_str()]),
        "cadical" => command.args(["-q".as_ref(), "--strict".as_ref(), input.as_os_str()]),
        _ => command.arg(&input),
    };
    let run = command.output().map_err(|error| format!("{solver}: {error}"))?;
    let mut said = String::from_utf8_lossy(&run.stdout).into_owned();
    let complaints = complaints(&said) + &complaints(&String::from_utf8_lossy(&run.stderr));
    if !complaints.is_empty() && !only_unused_variables(&complaints, text, v) {
        return Err(format!("{solver} complains: {complaints}"));
    }
    if solver == "minisat" {
        said = std::fs::read_to_string(&output).map_err(|error| error.to_string())?;
    }
    let _ = (std::fs::remove_file(&input), std::fs::remove_file(&output));
    match run.status.code() {
        Some(10) => Ok(Verdict::Satisfiable(values(&said, v)?)),
        Some(20) => Ok(Verdict::Unsatisfiable),
        code => Err(format!("{solver} ends with {code:?}: {said}")),
    }
}

/// The lines of an output that warn of something in the text. What minisat says of the machine is no such line.
fn complaints(said: &str) -> String {
    let complains = |line: &&str| {
        let line = line.to_lowercase();
        !line.contains("fpu") && ["warning", "error", "mismatch"].iter().any(|word| line.contains(word))
    };
    said.lines().filter(complains).map(|line| format!("{line}\n")).collect()
}

/// minisat alone warns where the highest variable stands in no clause, as one of an unused relation may.
fn only_unused_variables(complaints: &str, text: &[u8], v: u32) -> bool {
    let text = String::from_utf8_lossy(text);
    let literals = text.lines().skip(1).flat_map(|line| line.split(' ')).filter_map(|word| word.parse::<i32>().ok());
    let highest = literals.map(|literal| literal.unsigned_abs()).max().unwrap_or(0);
    highest < v && complaints == "WARNING! DIMACS header mismatch: wrong number of variables.\n"
}

/// The values that a solver prints; a variable it does not name is 0.
fn values(said: &str, v: u32) -> Result<Vec<u8>, String> {
    let mut values = vec![0; v as usize];
    let lines = said.lines().filter(|line| !line.starts_with(['c', 's', 'S']));
    for word in lines.flat_map(|line| line.trim_start_matches('v').split_whitespace()) {
        let literal: i32 = word.parse().map_err(|_| format!("no literal: {word}"))?;
        if literal.unsigned_abs() > v {
            return Err(format!("a literal beyond {v}: {word}"));
        }
        if literal > 0 {
            values[literal as usize - 1] = 1;
        }
    }
    Ok(values)
}
