//! A built program, run once per sheet, or once per files that it is given the names of.

use std::io::{Read, Write};
use std::path::PathBuf;
use std::process::{Command, Stdio};

/// The whole sheet in one piece.
pub const WHOLE: usize = usize::MAX;

/// What the program did with a sheet.
#[derive(Clone, PartialEq, Eq, Debug)]
pub struct Ending {
    pub printed: Vec<u8>,
    pub complained: Vec<u8>,
    pub well: bool,
}

/// The sheet is written from a thread, because the program may print before it has read everything. It is written in
/// pieces of at most `piece` bytes, so that the program meets reads that end early.
pub fn run(program: &str, sheet: &[u8], piece: usize) -> std::io::Result<Ending> {
    let mut child =
        Command::new(program).stdin(Stdio::piped()).stdout(Stdio::piped()).stderr(Stdio::piped()).spawn()?;
    let mut input = child.stdin.take().expect("piped");
    let mut errors = child.stderr.take().expect("piped");
    let sheet = sheet.to_vec();
    // A program that stops reading early breaks the pipe; what it printed is judged all the same.
    let writer = std::thread::spawn(move || {
        for part in sheet.chunks(piece) {
            if input.write_all(part).is_err() {
                return;
            }
            std::thread::yield_now();
        }
    });
    let listener = std::thread::spawn(move || {
        let mut complained = Vec::new();
        drop(errors.read_to_end(&mut complained));
        complained
    });
    let mut printed = Vec::new();
    child.stdout.take().expect("piped").read_to_end(&mut printed)?;
    let well = child.wait()?.success();
    drop(writer.join());
    let complained = listener.join().unwrap_or_default();
    Ok(Ending { printed, complained, well })
}

/// What is asked of the program: the same output, nothing on standard error, a normal end.
pub fn difference(program: &str, sheet: &[u8], expected: &[u8], piece: usize) -> Option<String> {
    judged(run(program, sheet, piece), expected)
}

/// A program that is given names of files, and nothing to read from standard input.
pub fn run_on(program: &str, files: &[PathBuf]) -> std::io::Result<Ending> {
    let output = Command::new(program).args(files).stdin(Stdio::null()).output()?;
    Ok(Ending { printed: output.stdout, complained: output.stderr, well: output.status.success() })
}

/// The same is asked of it.
pub fn difference_on(program: &str, files: &[PathBuf], expected: &[u8]) -> Option<String> {
    judged(run_on(program, files), expected)
}

fn judged(ending: std::io::Result<Ending>, expected: &[u8]) -> Option<String> {
    let ending = match ending {
        Ok(ending) => ending,
        Err(error) => return Some(format!("the program did not run: {error}")),
    };
    if ending.printed != expected {
        return Some(first_difference(&ending.printed, expected));
    }
    if !ending.complained.is_empty() {
        return Some(format!("on standard error: {}", String::from_utf8_lossy(&ending.complained)));
    }
    (!ending.well).then(|| "the program did not end normally".to_string())
}

fn first_difference(printed: &[u8], expected: &[u8]) -> String {
    let split = |text: &[u8]| -> Vec<String> {
        text.split(|b| *b == b'\n').map(|l| String::from_utf8_lossy(l).into_owned()).collect()
    };
    let (got, want) = (split(printed), split(expected));
    let at = got.iter().zip(&want).take_while(|(g, w)| g == w).count();
    let line = |lines: &[String]| lines.get(at).cloned().unwrap_or_else(|| "no more lines".to_string());
    format!("line {}: the program has {:?}, the reference {:?}", at + 1, line(&got), line(&want))
}
