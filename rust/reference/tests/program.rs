//! The session program: its lines where the table or the bytes are refused, and
//! what it does when its input or output fails.

mod canal;

use std::fs::{self, File};
use std::io::{self, Read, Write};
use std::process::{Command, Stdio};

use canal::*;
use reference::session::{run, run_bytes, Broken};
use reference::written::{push_number, record_bytes};
use reference::Record;

fn numbers(numbers: &[u64]) -> Vec<u8> {
    let mut bytes = Vec::new();
    for &number in numbers {
        push_number(number, &mut bytes).unwrap();
    }
    bytes
}

fn session(rounds: &[Record]) -> Vec<u8> {
    let mut bytes = numbers(&[3, 2, 3, 10, 100, 100, 40, 20, 200, 200, 50, 30, 400, 400, 40]);
    for round in rounds {
        bytes.extend(record_bytes(round).unwrap());
    }
    bytes
}

fn printed(bytes: &[u8]) -> String {
    String::from_utf8(run_bytes(bytes)).unwrap()
}

#[test]
fn a_refused_table_prints_its_refusal_alone() {
    assert_eq!(printed(&[]), "refused 18\n");
    assert_eq!(printed(&[0, 0]), "refused 18\n", "1 waits for the third number");
    assert_eq!(printed(&[0, 0, 0]), "refused 1\n");
    assert_eq!(printed(&[16, 1, 1]), "refused 1\n");
    assert_eq!(printed(&[1, 1, 65, 0x80, 0]), "refused 1\n");
    assert_eq!(printed(&[1, 1, 0x80, 0]), "refused 19\n");
    assert_eq!(printed(&[1, 1, 1, 0, 0, 0]), "refused 18\n", "2 waits for the whole table");
    assert_eq!(printed(&[1, 1, 1, 0, 0, 0, 0, 9, 9]), "refused 2\n");
    assert_eq!(printed(&numbers(&[1, 1 << 40, 1, 9, 9, 9, 0])), "refused 2\n");
}

#[test]
fn no_records_print_the_order_alone() {
    assert_eq!(printed(&session(&[])), "order\n");
}

#[test]
fn a_refused_record_stops_the_session_with_the_order() {
    let lines = "round 0 ipo 0 base 0 length 2 toc 2 nodes 000\n";
    let after = |record: &[u8]| printed(&[session(&[round_0()]), record.to_vec()].concat());
    let order = "order 1:1 2:2\n";
    assert_eq!(after(&[1, 0, 3, 0, 0, 0]), format!("{lines}refused 14\n{order}"));
    assert_eq!(after(&[1, 0, 3, 0, 0]), format!("{lines}refused 18\n{order}"), "the bytes come first");
    assert_eq!(after(&[9, 0, 3, 0, 0, 2, 0]), format!("{lines}refused 20\n{order}"));
    assert_eq!(after(&[9, 65]), format!("{lines}refused 15\n{order}"));
    assert_eq!(after(&[9, 0, 16]), format!("{lines}refused 15\n{order}"));
    assert_eq!(after(&[9, 0, 2, 0, 0]), format!("{lines}refused 15\n{order}"));
    assert_eq!(after(&[9, 1, 1, 0, 3, 0, 0, 0, 0xff]), format!("{lines}refused 16\n{order}"));
}

/// Gives its bytes one at a time, interrupted before each, then fails.
struct Failing<'a> {
    bytes: &'a [u8],
    interrupted: bool,
}

impl Read for Failing<'_> {
    fn read(&mut self, buffer: &mut [u8]) -> io::Result<usize> {
        self.interrupted = !self.interrupted;
        if self.interrupted {
            return Err(io::ErrorKind::Interrupted.into());
        }
        match self.bytes.split_first() {
            None => Err(io::Error::other("the line broke")),
            Some((&first, rest)) => {
                buffer[0] = first;
                self.bytes = rest;
                Ok(1)
            }
        }
    }
}

#[test]
fn a_failing_input_is_not_the_end_of_the_input() {
    let bytes = session(&[round_0()]);
    for cut in 0..=bytes.len() {
        let mut output = Vec::new();
        let ended = run(Failing { bytes: &bytes[..cut], interrupted: false }, &mut output);
        assert!(matches!(ended, Err(Broken::Input(_))));
        let lines = String::from_utf8(output).unwrap();
        assert!(!lines.contains("refused") && !lines.contains("order"), "{lines}");
        assert_eq!(lines.contains("round 0"), cut == bytes.len());
    }
}

fn program() -> Command {
    Command::new(env!("CARGO_BIN_EXE_reference-session"))
}

#[test]
fn the_program_prints_the_session() {
    let mut child = program().stdin(Stdio::piped()).stdout(Stdio::piped()).spawn().unwrap();
    child.stdin.take().unwrap().write_all(&session(&[round_0()])).unwrap();
    let ended = child.wait_with_output().unwrap();
    assert!(ended.status.success());
    assert_eq!(ended.stdout, run_bytes(&session(&[round_0()])));
}

#[test]
fn a_line_comes_out_before_the_next_record_is_waited_for() {
    let mut child = program().stdin(Stdio::piped()).stdout(Stdio::piped()).spawn().unwrap();
    let mut input = child.stdin.take().unwrap();
    let mut output = child.stdout.take().unwrap();
    input.write_all(&session(&[round_0()])).unwrap();
    let mut line = [0; 6];
    output.read_exact(&mut line).unwrap();
    assert_eq!(&line, b"round ");
    drop(input);
    assert!(child.wait().unwrap().success());
}

#[test]
fn the_program_tells_an_input_that_cannot_be_read() {
    let directory = File::open(env!("CARGO_MANIFEST_DIR")).unwrap();
    let ended = program().stdin(directory).output().unwrap();
    assert_eq!((ended.status.code(), ended.stdout.len()), (Some(1), 0));
    assert!(String::from_utf8(ended.stderr).unwrap().contains("input"));
    let write_only = scratch("write-only");
    let ended = program().stdin(File::create(&write_only).unwrap()).output().unwrap();
    assert_eq!((ended.status.code(), ended.stdout.len()), (Some(1), 0));
}

#[test]
fn the_program_tells_an_output_that_is_closed() {
    let input = scratch("session");
    fs::write(&input, session(&[round_0()])).unwrap();
    let (reader, writer) = io::pipe().unwrap();
    drop(reader);
    let ended =
        program().stdin(File::open(&input).unwrap()).stdout(writer).stderr(Stdio::piped()).output().unwrap();
    assert_eq!(ended.status.code(), Some(1));
    assert!(String::from_utf8(ended.stderr).unwrap().contains("output"));
}

fn scratch(name: &str) -> std::path::PathBuf {
    std::path::Path::new(env!("CARGO_TARGET_TMPDIR")).join(name)
}
