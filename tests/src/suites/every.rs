//! The program behind `./find --every`, line for line: its cases are all instances where there are few cells, each once and in
//! order, with the total of steps; what it does where the budget of a call is spent; `./find --every`.

use super::least::printed_cells;
use super::limits::Limits;
use super::programs::{full_lists, some_input};
use super::{agree, covered, hex};
use crate::{Outcome, Run};
use reference::brute::instances;
use reference::clauses::count;
use reference::every::{every, every_within};
use reference::finder::{lines, BUDGET};
use reference::limits::{cases, largest, texts};
use reference::long_search::{early, of_15_625};
use reference::random::Source;
use reference::random_small::small;
use reference::sheet::{read, visits, Node, Relation, Sheet};
use std::io::{BufRead, BufReader, Write};
use std::process::{Command, Stdio};

/// Cases of one sheet that are looked at.
const MOST: usize = 150;

/// What a program prints on an input: all of it where what is wanted has an end, else as many lines as this has. `every` is
/// stopped where it prints more.
fn printed(command: Command, input: &[u8], want: &str) -> Result<String, String> {
    printed_lines(command, input, want.lines().count(), is_whole(want))
}

/// What a program prints on an input: so many lines, and one more where these should be all.
pub fn printed_lines(mut command: Command, input: &[u8], lines: usize, all: bool) -> Result<String, String> {
    command.stdin(Stdio::piped()).stdout(Stdio::piped());
    let mut child = command.spawn().map_err(|error| format!("{command:?}: {error}"))?;
    let (mut stdin, input) = (child.stdin.take().expect("a pipe"), input.to_vec());
    // a program may stop reading where the input is too long
    let writer = std::thread::spawn(move || drop(stdin.write_all(&input)));
    let mut reader = BufReader::new(child.stdout.take().expect("a pipe"));
    let (mut got, mut read) = (String::new(), 0);
    // one line too many shows that it does not end
    let most = lines + usize::from(all);
    while read < most && reader.read_line(&mut got).map_err(|error| error.to_string())? > 0 {
        read += 1;
    }
    let ended = read < most;
    if !ended {
        let _ = child.kill();
    }
    drop(reader);
    let status = child.wait().map_err(|error| error.to_string())?;
    let _ = writer.join();
    if ended && !status.success() {
        return Err(format!("{command:?}: {status}"));
    }
    Ok(got)
}

/// Whether the last line is no case's.
pub fn is_whole(text: &str) -> bool {
    !text.lines().last().is_some_and(|line| line.starts_with('r') && !line.starts_with("refused "))
}

fn program() -> Command {
    let mut command = Command::new("target/bin/every");
    command.stderr(Stdio::null());
    command
}

/// What the program should print of an input, up to so many cases, and without what takes long; nothing where the first does.
fn wanted(bytes: &[u8]) -> Option<String> {
    let words = count(bytes).map_or(1, |size| u64::from(size.words));
    let most = if words > 2_000 { 3 } else { MOST };
    let mut text = every_within(bytes, most, (2_000_000 / words).min(3_000));
    if let Some(at) = text.find("spent ") {
        text.truncate(at);
    }
    (!text.is_empty()).then_some(text)
}

/// How often each was met.
struct Met([(&'static str, usize); 6]);

impl Met {
    /// One input against the reference.
    fn compare(&mut self, bytes: &[u8], asked: impl Fn() -> String) -> Result<Option<String>, String> {
        let Some(want) = wanted(bytes) else { return Ok(None) };
        let got = printed(program(), bytes, &want).map_err(|error| format!("{error}, {}", asked()))?;
        agree(&got, &want, asked)?;
        let (cases, last) = (want.matches("found ").count(), want.lines().last().unwrap_or(""));
        let place = match (last, cases) {
            (_, _) if last.starts_with("refused ") => 0,
            (_, 0) => 1,
            (_, _) if !is_whole(&want) => 5,
            (_, 1) => 2,
            (_, 2..=9) => 3,
            _ => 4,
        };
        self.0[place].1 += 1;
        Ok(is_whole(&got).then_some(got))
    }
}

/// What the program prints is exactly the instances, in order.
fn by_brute_force(sheet: &Sheet, printed: &str, asked: impl Fn() -> String) -> Result<(), String> {
    let want: String = instances(sheet).iter().map(|cells| lines(sheet, cells)).collect();
    let is_end = |line: &&str| ["found ", "none ", "spent "].iter().any(|end| line.starts_with(end));
    let got: String = printed.lines().filter(|line| !is_end(line)).map(|line| format!("{line}\n")).collect();
    agree(got, want, || format!("all instances by brute force, {}", asked()))?;
    let figures = |text: &str| -> Vec<u64> {
        text.lines().filter(is_end).filter_map(|line| line.split_once(' ')?.1.parse().ok()).collect()
    };
    agree(figures(printed).is_sorted(), true, || format!("steps that go down, {}", asked()))
}

pub fn run(run: &Run) -> Outcome {
    let names = ["a refusal", "none", "one case", "few cases", "ten cases or more", "cases not all looked at"];
    let (mut met, mut whole, mut limits) = (Met(names.map(|name| (name, 0))), 0, Limits::nothing());
    limited(&mut limits)?;
    for case in run.cases(200) {
        let source = &mut Source::new(run.seed, "every", case);
        let bytes = if case % 2 == 0 { some_input(source) } else { small(source).bytes() };
        let asked = || format!("case {case}, sheet {}", hex(&bytes));
        let Some(printed) = met.compare(&bytes, asked)? else { continue };
        let Ok(sheet) = read(&bytes) else { continue };
        if sheet.cells() <= 12 && visits(&sheet) << sheet.cells() <= 1 << 20 && !printed.starts_with("refused ") {
            by_brute_force(&sheet, &printed, asked)?;
            whole += 1;
            limits.sheet(&sheet);
            let cases = printed.split("found ").skip(1).map(|case| case.split("none ").next().unwrap_or(""));
            cases.for_each(|case| limits.instance(&sheet, &printed_cells(case)));
        }
    }
    covered(&met.0, 5)?;
    limits.covered(1, 5)?;
    covered(&[("all instances", whole)], 50)?;
    let examples = examples(&mut met)?;
    edges()?;
    many_cases()?;
    let long = long_searches()?;
    commands()?;
    let times: Vec<String> = met.0.iter().map(|(what, times)| format!("{times} {what}")).collect();
    let others =
        format!("{whole} all instances by brute force; {examples} examples, {long} long searches; {}", limits.said());
    Ok(format!("inputs agree line for line: {}; {others}", times.join(", ")))
}

/// All cases of sheets with a limited sort by hand, and the first of one of 1,088 cells.
fn limited(limits: &mut Limits) -> Result<(), String> {
    for (sheet, want) in texts() {
        let bytes = sheet.bytes();
        agree(printed(program(), &bytes, want)?.as_str(), want, || format!("by hand, sheet {}", hex(&bytes)))?;
    }
    for sheet in cases().into_iter().map(|case| case.sheet) {
        let (bytes, asked) = (sheet.bytes(), || format!("limited, sheet {}", hex(&sheet.bytes())));
        let want = every(&bytes, usize::MAX);
        let got = printed(program(), &bytes, &want)?;
        agree(&got, &want, asked)?;
        by_brute_force(&sheet, &got, asked)?;
        limits.sheet(&sheet);
    }
    let (most, long) = (largest(0, 0).bytes(), largest(16, 2).bytes());
    let want = every(&most, 3);
    agree(printed(program(), &most, &want)?, want, || "1,088 cells".to_string())?;
    agree(printed(program(), &long, "refused 13\n")?.as_str(), "refused 13\n", || "18,438 words".to_string())
}

/// The examples, of which some have many cases.
fn examples(met: &mut Met) -> Result<usize, String> {
    let files = std::fs::read_dir("examples").map_err(|error| error.to_string())?;
    let mut names: Vec<_> = files.filter_map(|file| file.ok().map(|file| file.path())).collect();
    names.retain(|name| name.extension().is_some_and(|extension| extension == "hex"));
    names.sort();
    for name in &names {
        let text = std::fs::read_to_string(name).map_err(|error| error.to_string())?;
        met.compare(&bytes_of(&text), || format!("example {}", name.display()))?;
    }
    covered(&[("an example", names.len())], 5)?;
    Ok(names.len())
}

/// The bytes of a text of hexadecimal digits, blanks and comments.
fn bytes_of(text: &str) -> Vec<u8> {
    let lines = text.lines().filter_map(|line| line.split('#').next());
    let digits: Vec<u8> =
        lines.flat_map(str::chars).filter_map(|char| char.to_digit(16)).map(|digit| digit as u8).collect();
    digits.chunks(2).map(|pair| pair[0] << 4 | pair[1]).collect()
}

/// As the finder it takes a list of exactly 16,384 words, and none of more; and parses 4,096 bytes, and no more.
fn edges() -> Result<(), String> {
    for (words, sheet) in full_lists() {
        let (bytes, asked) = (sheet.bytes(), || format!("{words} words"));
        let want = every(&bytes, 1);
        agree(want.starts_with("refused 13"), words > 16_384, asked)?;
        agree(printed(program(), &bytes, &want)?, want, asked)?;
    }
    for (length, number) in [(0, 1), (1, 1), (4_095, 1), (4_096, 1), (4_097, 2), (10_000, 2)] {
        let want = format!("refused {number}\n");
        agree(printed(program(), &vec![0; length], &want)?, want, || format!("{length} bytes of 0"))?;
    }
    Ok(())
}

/// Two sets of six cells of which some is 1: 4,095 cases.
pub fn many() -> Sheet {
    let set = Relation { columns: 1, mark: 0, first: 0, second: 0 };
    let nodes = [(1, 0, 0), (1, 1, 0), (5, 0, 1), (22, 2, 0)].map(|(kind, a, b)| Node { kind, a, b });
    Sheet { scopes: vec![6], variables: vec![], relations: vec![set; 2], nodes: nodes.to_vec() }
}

fn many_cases() -> Result<(), String> {
    let (bytes, asked) = (many().bytes(), || "many cases".to_string());
    let want = every(&bytes, usize::MAX);
    agree(want.matches("found ").count(), 4_095, asked)?;
    let got = printed(program(), &bytes, &want)?;
    agree(&got, &want, asked)?;
    by_brute_force(&many(), &got, asked)
}

/// The budget is for each call: spent at the first case; spent after two cases; four cases and none, more steps in all than one
/// call is allowed.
fn long_searches() -> Result<usize, String> {
    let first = of_15_625(6, 1).bytes();
    let middle = early(&[(8, 0), (8, 0), (1, 0)], 0).bytes();
    let in_all = early(&[(1, 0), (8, 0), (8, 0)], 1).bytes();
    for (bytes, cases, end) in [(first, 0, "spent "), (middle, 2, "spent "), (in_all, 4, "none ")] {
        let want = every(&bytes, usize::MAX);
        let asked = || format!("a long search, sheet {}", hex(&bytes));
        let last = want.lines().last().unwrap_or("");
        let steps: u64 = last[end.len()..].parse().map_err(|_| asked())?;
        agree((want.matches("found ").count(), &last[..end.len()]), (cases, end), asked)?;
        agree(steps > BUDGET || (cases == 0 && steps == BUDGET), true, asked)?;
        agree(printed(program(), &bytes, &want)?, want, asked)?;
    }
    Ok(3)
}

/// `./find --every FILE` prints what the program prints, a refusal too.
fn commands() -> Result<(), String> {
    let k1 = [1, 0, 1, 2, 0, 0, 0, 4, 1, 0, 0, 0, 0, 6, 1, 0, 0, 22, 0, 0];
    let file = "target/tests/sheet";
    for sheet in [&k1[..], &k1[..19], &many().bytes()] {
        std::fs::write(file, sheet).map_err(|error| error.to_string())?;
        let output = Command::new("./find").args(["--every", file]).output().map_err(|error| error.to_string())?;
        let printed = String::from_utf8_lossy(&output.stdout).to_string();
        let want = (every(sheet, usize::MAX), Some(0));
        agree((printed, output.status.code()), want, || format!("./find --every, sheet {}", hex(sheet)))?;
    }
    Ok(())
}
