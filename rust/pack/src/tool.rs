//! What `pack` and `unpack` share: one file argument or standard input, bytes
//! or lines on standard output, troubles on standard error with exit status 1.

use std::env;
use std::ffi::OsString;
use std::fmt::Display;
use std::fs::File;
use std::io::{BufReader, BufWriter};
use std::process::ExitCode;

use reference::stdio;

/// Runs `work` from the input that the arguments name to standard output.
/// What `work` wrote before a trouble is written out.
pub fn run<T: Display>(
    name: &str,
    help: &str,
    work: impl FnOnce(BufReader<File>, &mut BufWriter<File>) -> Result<(), T>,
) -> ExitCode {
    let ended = match arguments(env::args_os().skip(1).collect()) {
        Ok(Ask::Help) => {
            print!("{help}");
            return ExitCode::SUCCESS;
        }
        Ok(Ask::Work(file)) => open(file)
            .and_then(|(input, mut output)| work(input, &mut output).map_err(|trouble| trouble.to_string())),
        Err(message) => Err(format!("{message}; `{name} --help` says more")),
    };
    match ended {
        Ok(()) => ExitCode::SUCCESS,
        Err(message) => {
            eprintln!("{name}: {message}");
            ExitCode::FAILURE
        }
    }
}

enum Ask {
    Help,
    Work(Option<OsString>),
}

fn arguments(mut arguments: Vec<OsString>) -> Result<Ask, String> {
    if arguments.iter().any(|argument| argument == "--help" || argument == "-h") {
        return Ok(Ask::Help);
    }
    if arguments.len() > 1 {
        return Err("more than one file".to_string());
    }
    match arguments.pop() {
        Some(argument) if argument.as_encoded_bytes().starts_with(b"-") => {
            Err(format!("unknown option {}", argument.to_string_lossy()))
        }
        file => Ok(Ask::Work(file)),
    }
}

fn open(file: Option<OsString>) -> Result<(BufReader<File>, BufWriter<File>), String> {
    let input = match &file {
        None => stdio::input().map_err(|error| format!("input: {error}"))?,
        Some(path) => File::open(path).map_err(|error| format!("{}: {error}", path.to_string_lossy()))?,
    };
    let output = stdio::output().map_err(|error| format!("output: {error}"))?;
    Ok((BufReader::new(input), BufWriter::new(output)))
}
