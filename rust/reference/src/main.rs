//! `reference-session`: the session program over standard input and output.
//! Input that cannot be read and output that cannot be written are told on
//! standard error with exit status 1; neither passes for the end of the input.

use std::io::BufWriter;
use std::process::ExitCode;

use reference::session::{run, Broken};
use reference::stdio;

fn main() -> ExitCode {
    match session() {
        Ok(()) => ExitCode::SUCCESS,
        Err(message) => {
            eprintln!("reference-session: {message}");
            ExitCode::FAILURE
        }
    }
}

/// Leaving this function writes out what the buffer still holds, so the lines
/// of rounds that were closed before an input failed are not lost.
fn session() -> Result<(), String> {
    let input = stdio::input().map_err(|error| format!("input: {error}"))?;
    let output = stdio::output().map_err(|error| format!("output: {error}"))?;
    run(input, &mut BufWriter::new(output)).map_err(|broken| match broken {
        Broken::Input(error) => format!("input: {error}"),
        Broken::Output(error) => format!("output: {error}"),
    })
}
