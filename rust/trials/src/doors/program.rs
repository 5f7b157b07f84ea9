//! The program `trials-doors`, over the doors that it is given.

use std::env;
use std::process::ExitCode;

use super::trial::trial;
use super::Doors;
use crate::adversary::adversary;

const HELP: &str = "\
trials-doors [--seed N] [--scripts N] [--steps N]

Calls the library's functions beside the reference: nodes and stations through
scripts of calls, numbers, tables and records through lent bytes and lists, and
damaged tables and states. Then whole cabinets, healthy nodes with liars, by the
sentences of demand 3.

  --seed N     what to generate; 1 where it is not given
  --scripts N  how many scripts, and sessions of bytes; 6000 where not given
  --steps N    how many calls in whole cabinets; 1000000 where not given

With 0 scripts or 0 steps that half is left out. Exit status 0 where nothing
differed and everything on the lists was reached; 1 where something differed, 2
where something was not reached or the cabinets were too tame, 3 where the
arguments were wrong.
";

struct Asked {
    seed: u64,
    scripts: u64,
    steps: u64,
}

pub fn main(doors: &Doors) -> ExitCode {
    if env::args().any(|argument| argument == "--help" || argument == "-h") {
        print!("{HELP}");
        return ExitCode::SUCCESS;
    }
    let told = asked(env::args().skip(1)).map_err(|message| (3, message)).and_then(|asked| {
        compare(doors, &asked)?;
        play(doors, &asked)
    });
    match told {
        Ok(()) => ExitCode::SUCCESS,
        Err((status, message)) => {
            eprintln!("trials-doors: {message}");
            ExitCode::from(status)
        }
    }
}

fn asked(mut arguments: impl Iterator<Item = String>) -> Result<Asked, String> {
    let mut asked = Asked { seed: 1, scripts: 6000, steps: 1_000_000 };
    while let Some(option) = arguments.next() {
        let value = arguments.next().ok_or(format!("{option} needs a value; --help says more"))?;
        let number = value.parse::<u64>().map_err(|_| format!("{option} needs a number, not {value}"))?;
        match option.as_str() {
            "--seed" => asked.seed = number,
            "--scripts" => asked.scripts = number,
            "--steps" => asked.steps = number,
            _ => return Err(format!("unknown option {option}; --help says more")),
        }
    }
    Ok(asked)
}

fn compare(doors: &Doors, asked: &Asked) -> Result<(), (u8, String)> {
    if asked.scripts == 0 {
        return Ok(());
    }
    let tried = trial(doors, asked.seed, asked.scripts).map_err(|difference| (1, difference))?;
    println!("{:>9}  what the calls reached", "times");
    print!("{}", tried.reached.summary());
    println!(
        "{} calls in {} scripts of seed {} and beside them, every answer and every word as the reference has it",
        tried.calls, asked.scripts, asked.seed
    );
    match tried.reached.missing() {
        missing if missing.is_empty() => Ok(()),
        missing => Err((2, format!("not reached: {}", missing.join("; ")))),
    }
}

fn play(doors: &Doors, asked: &Asked) -> Result<(), (u8, String)> {
    if asked.steps == 0 {
        return Ok(());
    }
    let met = adversary(doors, asked.seed, asked.steps)
        .map_err(|(cabinet, broken)| (1, format!("cabinet {cabinet} of seed {}: {broken}", asked.seed)))?;
    println!("\n{:>9}  what the cabinets met", "times");
    print!("{}", met.summary());
    println!(
        "{} calls of healthy nodes in {} cabinets of seed {}, each sentence of demand 3 held after each",
        met.steps, met.cabinets, asked.seed
    );
    match met.too_tame() {
        seldom if seldom.is_empty() => Ok(()),
        seldom => Err((2, format!("too seldom met: {}", seldom.join("; ")))),
    }
}
