//! `explain`: refusal numbers in, what they mean out.

use std::env;
use std::ffi::OsString;
use std::fs;
use std::io::{self, ErrorKind, Write};
use std::path::Path;
use std::process::ExitCode;

use explain::{explain, guide, refusals};

const USAGE: &str = "\
explain NUMBER ..
explain --all
explain --list
explain --guide FILE

What a refusal means, in four lines: the refusal with the calls that give it,
its cause, its cure, and what stayed as it was.

  --all         every refusal
  --list        every number with its name, a line each
  --guide FILE  writes the chapter on refusals anew into FILE, which is
                docs/GUIDE.md; `make guide` does so

Exit status 0 where all was told; 1 for a number that no refusal has; 2 for wrong
usage, and where a file cannot be read or written.
";

/// Why nothing was told, and the exit status for it.
type Failure = (u8, String);

fn main() -> ExitCode {
    let arguments: Vec<OsString> = env::args_os().skip(1).collect();
    let words: Vec<&str> = arguments.iter().map(|word| word.to_str().unwrap_or("?")).collect();
    let ended = match words[..] {
        ["--help" | "-h"] => say(USAGE),
        ["--all"] => say(&all()),
        ["--list"] => say(&list()),
        ["--guide", _] => write_guide(Path::new(&arguments[1])),
        [] => Err((2, "which number? `explain --help` says more".to_string())),
        ref numbers => told(numbers).and_then(|text| say(&text)),
    };
    match ended {
        Ok(()) => ExitCode::SUCCESS,
        Err((status, message)) => {
            // Standard error may be closed; then nobody wants to be told.
            let _ = writeln!(io::stderr(), "explain: {message}");
            ExitCode::from(status)
        }
    }
}

fn told(numbers: &[&str]) -> Result<String, Failure> {
    let mut texts = Vec::new();
    for word in numbers {
        let number: u64 =
            word.parse().map_err(|_| (2, format!("'{word}' is no number; `explain --help` says more")))?;
        let text = explain(number);
        texts.push(text.ok_or((1, format!("no refusal has the number {number}; `explain --list` has all")))?);
    }
    Ok(texts.join("\n\n") + "\n")
}

fn all() -> String {
    let texts: Vec<String> = refusals().iter().map(|refusal| refusal.lines().join("\n")).collect();
    texts.join("\n\n") + "\n"
}

fn list() -> String {
    refusals().iter().map(|refusal| format!("{:>3}  {}\n", refusal.number, refusal.name)).collect()
}

fn write_guide(path: &Path) -> Result<(), Failure> {
    let failed = |why: String| (2, format!("{}: {why}", path.display()));
    let old = fs::read_to_string(path).map_err(|error| failed(error.to_string()))?;
    let new = guide::written(&old).map_err(failed)?;
    if new == old {
        return Ok(());
    }
    fs::write(path, new).map_err(|error| failed(error.to_string()))
}

/// A reader that went away is no failure.
fn say(text: &str) -> Result<(), Failure> {
    match io::stdout().write_all(text.as_bytes()).and_then(|()| io::stdout().flush()) {
        Err(error) if error.kind() != ErrorKind::BrokenPipe => Err((2, format!("standard output: {error}"))),
        _ => Ok(()),
    }
}
