//! Runs a program that reads standard input.

use std::io::{ErrorKind, Write};
use std::process::{Command, Output, Stdio};
use std::thread::sleep;
use std::time::Duration;

use crate::checks::Checks;
use crate::reference::page::{Complaint, Printed};

/// What a program wrote. In text a byte that is none is replaced, and so differs from all that is
/// expected.
pub struct Written {
    pub bytes: Vec<u8>,
    pub output: String,
    pub error: String,
}

/// The program is handed the pieces with pauses between them.
fn output_for(program: &str, pieces: &[&[u8]]) -> Output {
    let mut running = Command::new(program)
        .stdin(Stdio::piped())
        .stdout(Stdio::piped())
        .stderr(Stdio::piped())
        .spawn()
        .unwrap_or_else(|error| panic!("{program} can't be started: {error}"));
    let mut input = running.stdin.take().expect("the input is a pipe");
    for (at, piece) in pieces.iter().enumerate() {
        if at > 0 {
            sleep(Duration::from_millis(30));
        }
        match input.write_all(piece) {
            Ok(()) => {}
            // The program may have read enough to know its answer.
            Err(error) if error.kind() == ErrorKind::BrokenPipe => break,
            Err(error) => panic!("{program} can't be written to: {error}"),
        }
    }
    drop(input);
    running.wait_with_output().expect("the program ends")
}

/// Runs a program on an input that comes in pieces.
pub fn run(
    checks: &mut Checks,
    program: &str,
    input: impl FnOnce() -> String,
    pieces: &[&[u8]],
) -> Written {
    let output = output_for(program, pieces);
    let ended = output.status.code().is_some();
    checks.same("it ends by no signal", input, true, ended);
    let text = |bytes: &[u8]| String::from_utf8_lossy(bytes).into_owned();
    Written {
        output: text(&output.stdout),
        error: text(&output.stderr),
        bytes: output.stdout,
    }
}

/// An input as text for a message, cut where it is long.
pub fn shown(input: &[u8]) -> String {
    let start = &input[..input.len().min(600)];
    format!("{} bytes, \"{}\"", input.len(), start.escape_ascii())
}

/// What the complaint is about is compared, and of a line its reason; where several are true, one of
/// them will do.
fn compare_complaint(
    checks: &mut Checks,
    input: impl Fn() -> String,
    complaint: Complaint,
    error: &str,
) {
    let about = "what its standard error is about";
    match complaint {
        Complaint::Remarks(said) => {
            return checks.same_lines("its standard error", input, &said, error);
        }
        Complaint::OfLine(number, reasons) => {
            let start = format!("line {number}: ");
            let reason = error.strip_prefix(&start).unwrap_or_default().trim_end();
            let came: String = error.chars().take(start.len()).collect();
            checks.same(about, &input, start, came);
            let told = reasons.iter().find(|true_one| **true_one == reason);
            let told = told.unwrap_or(&reasons[0]);
            checks.same("its reason", &input, &told[..], reason);
        }
        Complaint::OfPage => checks.same(about, &input, false, error.starts_with("line ")),
    }
    let one_line = error.ends_with('\n') && error.lines().count() == 1;
    checks.same("its standard error is one line", input, true, one_line);
}

/// A program that reads a page, run on one that comes in pieces: all that it writes. Gives back what it
/// printed.
pub fn compare(checks: &mut Checks, program: &str, expected: Printed, pieces: &[&[u8]]) -> String {
    let page = pieces.concat();
    let input = || format!("{}, in {} pieces", shown(&page), pieces.len());
    let written = run(checks, program, input, pieces);
    checks.same_lines(program, input, &expected.output, &written.output);
    compare_complaint(checks, input, expected.complaint, &written.error);
    written.output
}
