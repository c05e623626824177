//! Programs whose input or output fails: they say so on standard error, print nothing more, and end with a status that
//! is not 0. An input that only comes slowly is no failure.

use super::every::many;
use super::programs::clause_text;
use super::{agree, hex};
use crate::{Outcome, Run};
use reference::deep::sheets;
use reference::every::every;
use reference::sheet::Sheet;
use std::fs::File;
use std::io::{Read, Write};
use std::os::fd::AsRawFd;
use std::process::{Child, Command, Output, Stdio};
use std::time::{Duration, Instant};

/// Case K1, to which the finder says `found 4`.
const K1: [u8; 20] = [1, 0, 1, 2, 0, 0, 0, 4, 1, 0, 0, 0, 0, 6, 1, 0, 0, 22, 0, 0];

/// The programs, each with the name that it says.
const PROGRAMS: [(&str, &str); 4] =
    [("finder", "finder"), ("cnf", "cnf"), ("finder_on", "finder"), ("every", "finder")];

extern "C" {
    fn fcntl(fd: i32, command: i32, word: i32) -> i32;
}

/// Has a pipe's end say "try again" where it would wait (Linux: `F_SETFL`, `O_NONBLOCK`).
fn without_waiting(end: &impl AsRawFd) {
    assert_eq!(unsafe { fcntl(end.as_raw_fd(), 4, 0o4000) }, 0, "fcntl");
}

/// A program, to be started with its input, output and errors in pipes unless the caller sets others.
fn program(name: &str) -> Command {
    let mut command = Command::new(format!("target/bin/{name}"));
    command.stdin(Stdio::null()).stdout(Stdio::piped()).stderr(Stdio::piped());
    command
}

/// Waits for a program's end, but not for ever.
fn ended(mut child: Child) -> Result<Output, String> {
    let deadline = Instant::now() + Duration::from_secs(60);
    while child.try_wait().map_err(|error| error.to_string())?.is_none() {
        if Instant::now() > deadline {
            let _ = child.kill();
            return Err("a program did not end".to_string());
        }
        std::thread::sleep(Duration::from_millis(5));
    }
    child.wait_with_output().map_err(|error| error.to_string())
}

/// That a program failed as it should: the word, the status, and nothing on standard output.
fn failed(case: &str, output: Output, word: &str) -> Result<(), String> {
    let errors = String::from_utf8_lossy(&output.stderr).to_string();
    agree(errors.as_str(), format!("{word}\n").as_str(), || format!("{case}: standard error"))?;
    agree(output.stdout.as_slice(), b"".as_slice(), || format!("{case}: standard output"))?;
    agree(output.status.code(), Some(1), || format!("{case}: status"))
}

fn start(mut command: Command) -> Result<Child, String> {
    command.spawn().map_err(|error| format!("{command:?}: {error}"))
}

const AGAIN: &str = "Resource temporarily unavailable";

/// Inputs that fail: half of K1 and then "try again", all of it and then "try again", none, a directory.
fn inputs((name, said): (&str, &str)) -> Result<usize, String> {
    let says = |why: &str| format!("{said}: reading standard input: {why}");
    for (case, bytes) in [("half of K1", &K1[..10]), ("K1 and no end", &K1[..]), ("nothing yet", &[])] {
        let (reader, mut writer) = std::io::pipe().map_err(|error| error.to_string())?;
        without_waiting(&reader);
        writer.write_all(bytes).map_err(|error| error.to_string())?;
        let mut command = program(name);
        command.stdin(reader);
        let output = ended(start(command)?)?;
        failed(&format!("{name}, {case}"), output, &says(AGAIN))?;
        drop(writer);
    }
    let mut command = program(name);
    command.stdin(File::open("tests").map_err(|error| error.to_string())?);
    failed(&format!("{name}, a directory"), ended(start(command)?)?, &says("Is a directory"))?;
    failed(&format!("{name}, a closed input"), ended(start(redirected(name, "<&-"))?)?, &says("Bad file descriptor"))?;
    Ok(5)
}

/// A program started by a shell that closes something.
fn redirected(name: &str, how: &str) -> Command {
    let mut command = Command::new("bash");
    command.args(["-c", &format!("exec target/bin/{name} {how}")]);
    command.stdin(Stdio::null()).stdout(Stdio::piped()).stderr(Stdio::piped());
    command
}

/// A pipe that K1 is in, and that ends.
fn k1() -> Result<std::io::PipeReader, String> {
    let (reader, mut writer) = std::io::pipe().map_err(|error| error.to_string())?;
    writer.write_all(&K1).map_err(|error| error.to_string())?;
    Ok(reader)
}

/// Outputs that fail: a full device, a full pipe, a pipe that nobody reads, none.
fn outputs((name, said): (&str, &str)) -> Result<usize, String> {
    let says = |why: &str| format!("{said}: writing standard output: {why}");
    let mut full = program(name);
    full.stdin(k1()?).stdout(File::options().write(true).open("/dev/full").map_err(|error| error.to_string())?);
    failed(&format!("{name}, a full device"), ended(start(full)?)?, &says("No space left on device"))?;

    let (reader, mut writer) = std::io::pipe().map_err(|error| error.to_string())?;
    without_waiting(&writer);
    while writer.write(&[b'.'; 4_096]).is_ok() {}
    let mut command = program(name);
    command.stdin(k1()?).stdout(writer);
    failed(&format!("{name}, a full pipe"), ended(start(command)?)?, &says(AGAIN))?;
    drop(reader);

    let (reader, writer) = std::io::pipe().map_err(|error| error.to_string())?;
    drop(reader);
    let mut command = program(name);
    command.stdin(k1()?).stdout(writer);
    failed(&format!("{name}, no reader"), ended(start(command)?)?, &says("Broken pipe"))?;

    let mut closed = redirected(name, ">&-");
    closed.stdin(k1()?);
    failed(&format!("{name}, a closed output"), ended(start(closed)?)?, &says("Bad file descriptor"))?;
    Ok(4)
}

/// A long clause text, and many cases, into a pipe that takes only their start: what was written is the start, and the status
/// says that it is not all.
fn long_output((name, said): (&str, &str), sheet: &Sheet, want: &str) -> Result<(), String> {
    let bytes = sheet.bytes();
    let (mut reader, writer) = std::io::pipe().map_err(|error| error.to_string())?;
    without_waiting(&writer);
    let mut command = program(name);
    command.stdin(Stdio::piped()).stdout(writer);
    let mut child = start(command)?;
    child.stdin.take().expect("a pipe").write_all(&bytes).map_err(|error| error.to_string())?;
    let output = ended(child)?;
    failed(&format!("{name}, a long text"), output, &format!("{said}: writing standard output: {AGAIN}"))?;
    let mut got = String::new();
    reader.read_to_string(&mut got).map_err(|error| error.to_string())?;
    agree(!got.is_empty() && got.len() < want.len() && want.starts_with(&got), true, || {
        format!("{name}, a long text: {} bytes of {}, sheet {}", got.len(), want.len(), hex(&bytes))
    })
}

/// K1 in two halves, the second late, through a pipe that waits: an answer as to any other input.
fn slow_input(name: &str) -> Result<(), String> {
    let mut command = program(name);
    command.stdin(Stdio::piped());
    let mut child = start(command)?;
    let mut stdin = child.stdin.take().expect("a pipe");
    for half in [&K1[..10], &K1[10..]] {
        stdin.write_all(half).map_err(|error| error.to_string())?;
        std::thread::sleep(Duration::from_millis(50));
    }
    drop(stdin);
    let output = ended(child)?;
    let want = match name {
        "cnf" => clause_text(&K1),
        "every" => "found 4\nr0 01\nfound 6\nr0 10\nfound 7\nr0 11\nnone 7\n".to_string(),
        _ => "found 4\nr0 01\n".to_string(),
    };
    let got = (String::from_utf8_lossy(&output.stdout).to_string(), output.stderr, output.status.code());
    agree(got, (want, vec![], Some(0)), || format!("{name}, K1 in two halves"))
}

pub fn run(_: &Run) -> Outcome {
    let mut met = 0;
    for program in PROGRAMS {
        met += inputs(program)? + outputs(program)?;
        slow_input(program.0)?;
    }
    let (_, union) = sheets().into_iter().find(|(name, _)| name == "union").expect("a sheet");
    long_output(PROGRAMS[1], &union, &clause_text(&union.bytes()))?;
    long_output(PROGRAMS[3], &many(), &every(&many().bytes(), usize::MAX))?;
    let commands = super::commands::run()?;
    Ok(format!("{} inputs and outputs that fail are told; slow ones are read; {commands}", met + 2))
}
