//! `trials-selftest`: sees that the trials tell a wrong session program and a
//! wrong library from right ones. Each edit is put into a copy of the reference,
//! which is built and tried; each must be told. The reference itself and, by
//! sessions, the changes of `alike/` must not be.

use std::env;
use std::path::Path;
use std::process::{Command, ExitCode};

use trials::trial::{trial, Limits};
use trials::wrong::{edits, Copy, Edit, WrongDoors};

const HELP: &str = "\
trials-selftest [--sessions | --doors] [NAME..]

Run from the folder of the cargo workspace. Builds the reference with each edit
in turn (or with those named), and prints when it was told.

  --sessions  only the session program, tried on generated sessions, with each
              edit of trials/wrong; those of trials/alike must not be told
  --doors     only the library, in whose place a stand-in over the reference is
              called, with each edit of trials/wrong and trials/wrong-node; where
              an edit breaks demand 3, whole cabinets must show it too

Fails where one was not told that must be, or was told that must not be, and
where an edit does not fit the reference exactly once.
";

const SEED: u64 = 1;
const LIMITS: Limits = Limits { sessions: 6000, time: None };

fn main() -> ExitCode {
    let (options, names): (Vec<String>, Vec<String>) =
        env::args().skip(1).partition(|argument| argument.starts_with('-'));
    let (sessions, doors) = match options.iter().map(String::as_str).collect::<Vec<_>>()[..] {
        [] => (true, true),
        ["--sessions"] => (true, false),
        ["--doors"] => (false, true),
        _ => {
            print!("{HELP}");
            return ExitCode::from(u8::from(options != ["--help"]));
        }
    };
    let told = (|| {
        if sessions {
            by_sessions(&names)?;
        }
        if doors {
            by_doors(&names)?;
        }
        Ok::<(), String>(())
    })();
    match told {
        Ok(()) => ExitCode::SUCCESS,
        Err(message) => {
            eprintln!("trials-selftest: {message}");
            ExitCode::FAILURE
        }
    }
}

/// The edits of a folder that were asked for.
fn asked(folder: &str, names: &[String]) -> Result<Vec<Edit>, String> {
    let mut edits = edits(Path::new(folder))?;
    edits.retain(|edit| names.is_empty() || names.contains(&edit.name));
    Ok(edits)
}

fn by_sessions(names: &[String]) -> Result<(), String> {
    let copy = Copy::new(Path::new("reference"), Path::new("target/wrong"));
    let mut failed = Vec::new();
    if names.is_empty() && told(&copy, None)?.is_some() {
        return Err("the reference itself is told apart".to_string());
    }
    println!("{:>8}  by sessions", "told at");
    for edit in asked("trials/wrong", names)? {
        match told(&copy, Some(&edit))? {
            Some(sessions) => println!("{sessions:>8}  {}: {}", edit.name, edit.says),
            None => failed.push(format!("{} was not told: {}", edit.name, edit.says)),
        }
    }
    println!("\nalike, and rightly not told");
    for edit in asked("trials/alike", names)? {
        match told(&copy, Some(&edit))? {
            None => println!("{:>8}  {}: {}", "-", edit.name, edit.says),
            Some(sessions) => failed.push(format!("{} was told at {sessions}: {}", edit.name, edit.says)),
        }
    }
    if failed.is_empty() {
        println!("\nevery wrong session program was told");
        return Ok(());
    }
    Err(failed.join("\n"))
}

/// After how many sessions the reference with this edit was told, if at all.
fn told(copy: &Copy, edit: Option<&Edit>) -> Result<Option<u64>, String> {
    let outcome = trial(&copy.build(edit)?, SEED, LIMITS).map_err(|error| error.to_string())?;
    Ok(outcome.difference.map(|_| outcome.sessions))
}

fn by_doors(names: &[String]) -> Result<(), String> {
    let wrong = WrongDoors::new(Path::new("reference"), Path::new("trials"), Path::new("target/wrong-doors"));
    let mut failed = Vec::new();
    if names.is_empty() {
        let program = wrong.build(None)?;
        if let Some(what) = compared(&program)?.or(played(&program)?) {
            return Err(format!("the reference itself is told apart: {what}"));
        }
    }
    println!("\nby calls, and by whole cabinets where that is said");
    for edit in [asked("trials/wrong", names)?, asked("trials/wrong-node", names)?].concat() {
        if edit.of_session() {
            continue;
        }
        let program = wrong.build(Some(&edit))?;
        match compared(&program)? {
            Some(what) => println!("{}: {}\n    {what}", edit.name, edit.says),
            None => failed.push(format!("{} was not told by calls: {}", edit.name, edit.says)),
        }
        if edit.breaks_demand_3 {
            match played(&program)? {
                Some(what) if what.contains("demand 3 is broken") => println!("    {what}"),
                other => failed.push(format!("{}: whole cabinets show no break: {other:?}", edit.name)),
            }
        }
    }
    if failed.is_empty() {
        println!("\nevery wrong library was told");
        return Ok(());
    }
    Err(failed.join("\n"))
}

/// What the calls beside the reference told, if they differ.
fn compared(program: &Path) -> Result<Option<String>, String> {
    difference(program, &["--scripts", "6000", "--steps", "0"])
}

/// What the cabinets told, if something was broken.
fn played(program: &Path) -> Result<Option<String>, String> {
    difference(program, &["--scripts", "0", "--steps", "1000000"])
}

/// Where the program told a difference, how it began to. One that stops by itself
/// has told one too; one that reached too little has not.
fn difference(program: &Path, arguments: &[&str]) -> Result<Option<String>, String> {
    let seed = SEED.to_string();
    let ended = Command::new(program)
        .args(["--seed", &seed])
        .args(arguments)
        .output()
        .map_err(|error| format!("{}: {error}", program.display()))?;
    let said = String::from_utf8_lossy(&ended.stderr);
    let lines: Vec<&str> = said.lines().filter(|line| !line.is_empty()).take(2).collect();
    let begun: String = lines.join(" ").chars().take(150).collect();
    match ended.status.code() {
        Some(0) => Ok(None),
        Some(2) if said.contains("not reached") || said.contains("too seldom") => Ok(None),
        Some(1) => Ok(Some(begun)),
        _ => Ok(Some(format!("it stopped: {begun}"))),
    }
}
