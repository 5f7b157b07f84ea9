//! `drill`: a script in, a line for each reply out.

use std::env;
use std::ffi::OsString;
use std::fs::File;
use std::io::{self, BufRead, BufReader, ErrorKind, IsTerminal, Write};
use std::os::fd::AsFd;
use std::process::ExitCode;

use drill::{Drill, Trouble, COMMANDS};

const USAGE: &str = "\
drill [--echo] [FILE]

A cabinet in one process: controllers and a station that watches, driven by text
commands from FILE, or from standard input. Each reply is a line on standard
output.

  --echo  print every line of the script too, with the reply below it

A command that cannot be carried out is told on standard error with its line and
column and changes nothing; the script goes on. An expectation that is not met
is told there too and ends the drill.

Exit status 0 where all went well; 1 after a bad command or an expectation that
was not met; 2 for wrong usage, and where a file cannot be read or written.

";

fn main() -> ExitCode {
    let ended = match asked(env::args_os().skip(1)) {
        Ok(Ask::Help) => output().and_then(|mut out| write!(out, "{USAGE}{COMMANDS}")).map_err(writing),
        Ok(Ask::Run { echo, file }) => open(file).and_then(|input| run(input, echo)),
        Err(message) => Err(Ending::Failed(format!("{message}; `drill --help` says more"))),
    };
    match ended {
        Ok(()) => ExitCode::SUCCESS,
        Err(Ending::Gone) => ExitCode::SUCCESS,
        Err(Ending::Told) => ExitCode::from(1),
        Err(Ending::Failed(message)) => {
            tell(&message);
            ExitCode::from(2)
        }
    }
}

/// How a run ends that was not carried to its end, or not well.
enum Ending {
    /// Nobody reads the output any more, which is no failure.
    Gone,
    /// What was wrong with the script has been told.
    Told,
    /// A file, or the usage.
    Failed(String),
}

enum Ask {
    Help,
    Run { echo: bool, file: Option<OsString> },
}

fn asked(arguments: impl Iterator<Item = OsString>) -> Result<Ask, String> {
    let (mut echo, mut file) = (false, None);
    for argument in arguments {
        if argument == "--help" || argument == "-h" {
            return Ok(Ask::Help);
        } else if argument == "--echo" {
            echo = true;
        } else if argument.as_encoded_bytes().starts_with(b"-") {
            return Err(format!("unknown option {}", argument.to_string_lossy()));
        } else if file.replace(argument).is_some() {
            return Err("more than one file".to_string());
        }
    }
    Ok(Ask::Run { echo, file })
}

/// The script, and its name for messages.
struct Input {
    name: String,
    lines: BufReader<File>,
}

fn open(file: Option<OsString>) -> Result<Input, Ending> {
    let (name, opened) = match file {
        Some(path) => (path.to_string_lossy().into_owned(), File::open(&path)),
        None => ("standard input".to_string(), standard_input()),
    };
    match opened {
        Ok(file) => Ok(Input { name, lines: BufReader::new(file) }),
        Err(error) => Err(Ending::Failed(format!("{name}: {error}"))),
    }
}

fn standard_input() -> io::Result<File> {
    if io::stdin().is_terminal() {
        tell("`help` lists the commands; the end of the input (Ctrl-D) ends the drill");
    }
    Ok(File::from(io::stdin().as_fd().try_clone_to_owned()?))
}

/// Standard output as a file: a write that fails is then told as one.
fn output() -> io::Result<File> {
    Ok(File::from(io::stdout().as_fd().try_clone_to_owned()?))
}

fn writing(error: io::Error) -> Ending {
    match error.kind() {
        ErrorKind::BrokenPipe => Ending::Gone,
        _ => Ending::Failed(format!("standard output: {error}")),
    }
}

/// Standard error may be closed; then nobody wants to be told.
fn tell(message: &str) {
    let _ = writeln!(io::stderr(), "drill: {message}");
}

fn run(mut input: Input, echo: bool) -> Result<(), Ending> {
    let mut output = output().map_err(writing)?;
    let mut drill = Drill::new();
    let mut good = true;
    let mut bytes = Vec::new();
    loop {
        bytes.clear();
        let read = input.lines.read_until(b'\n', &mut bytes);
        if read.map_err(|error| Ending::Failed(format!("{}: {error}", input.name)))? == 0 {
            return if good { Ok(()) } else { Err(Ending::Told) };
        }
        match carry_out(&mut drill, &bytes, echo, &mut output) {
            Ok(()) => {}
            Err(Stop::Trouble(trouble)) => {
                tell(&trouble.to_string());
                good = false;
                if matches!(trouble, Trouble::Unmet { .. }) {
                    return Err(Ending::Told);
                }
            }
            Err(Stop::Output(error)) => {
                return Err(match writing(error) {
                    Ending::Gone if !good => Ending::Told,
                    ending => ending,
                })
            }
        }
    }
}

enum Stop {
    Trouble(Trouble),
    Output(io::Error),
}

/// Carries out one line. Its text goes out in one write, so that a listener
/// sees whole replies.
fn carry_out(drill: &mut Drill, bytes: &[u8], echo: bool, output: &mut File) -> Result<(), Stop> {
    let mut text = String::new();
    let typed = std::str::from_utf8(bytes);
    if echo {
        text.push_str(String::from_utf8_lossy(bytes).trim_end());
        text.push('\n');
    }
    let answer = match typed {
        Ok(typed) => drill.line(typed.trim_end_matches(['\r', '\n'])),
        Err(error) => {
            let before = String::from_utf8_lossy(&bytes[..error.valid_up_to()]);
            Err(drill.no_text(before.chars().count() + 1))
        }
    };
    for line in answer.iter().flatten().flat_map(|event| &event.said) {
        text.push_str(if echo { "    " } else { "" });
        text.push_str(line);
        text.push('\n');
    }
    output.write_all(text.as_bytes()).map_err(Stop::Output)?;
    answer.map(|_| ()).map_err(Stop::Trouble)
}
