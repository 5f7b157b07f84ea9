//! `trials`: compares a session program with the reference.

use std::env;
use std::fs;
use std::io;
use std::path::{Path, PathBuf};
use std::process::ExitCode;
use std::time::Duration;

use trials::trial::{trial, Difference, Limits, Outcome, Smaller};

const HELP: &str = "\
trials --under PROGRAM [--seed N] [--sessions N] [--seconds N] [--save DIR]

Runs PROGRAM on generated sessions, each on its standard input, and compares
what it prints with the reference byte for byte. PROGRAM must end with status 0.

  --seed N      the sessions to generate; 1 where it is not given
  --sessions N  how many; 6000 where neither this nor --seconds is given
  --seconds N   stop after so many seconds
  --save DIR    where a differing session goes; target/trials where not given

Exit status 0 where every session agreed and every rule, reason and edge on the
list was reached; 1 where a session differed or something was not reached.
";

const SESSIONS: u64 = 6000;

struct Asked {
    under: PathBuf,
    seed: u64,
    limits: Limits,
    save: PathBuf,
}

fn main() -> ExitCode {
    if env::args().any(|argument| argument == "--help" || argument == "-h") {
        print!("{HELP}");
        return ExitCode::SUCCESS;
    }
    let told = asked(env::args().skip(1)).and_then(|asked| tell(&asked));
    match told {
        Ok(()) => ExitCode::SUCCESS,
        Err(message) => {
            eprintln!("trials: {message}");
            ExitCode::FAILURE
        }
    }
}

fn asked(mut arguments: impl Iterator<Item = String>) -> Result<Asked, String> {
    let (mut under, mut seed, mut save) = (None, 1, PathBuf::from("target/trials"));
    let (mut sessions, mut seconds) = (None, None);
    while let Some(option) = arguments.next() {
        let value = arguments.next().ok_or(format!("{option} needs a value; --help says more"))?;
        let number = || value.parse::<u64>().map_err(|_| format!("{option} needs a number, not {value}"));
        match option.as_str() {
            "--under" => under = Some(PathBuf::from(&value)),
            "--save" => save = PathBuf::from(&value),
            "--seed" => seed = number()?,
            "--sessions" => sessions = Some(number()?),
            "--seconds" => seconds = Some(number()?),
            _ => return Err(format!("unknown option {option}; --help says more")),
        }
    }
    let under = under.ok_or("--under PROGRAM is missing; --help says more")?;
    let sessions = sessions.unwrap_or(if seconds.is_some() { u64::MAX } else { SESSIONS });
    let limits = Limits { sessions, time: seconds.map(Duration::from_secs) };
    Ok(Asked { under, seed, limits, save })
}

fn tell(asked: &Asked) -> Result<(), String> {
    let under = |error: io::Error| format!("{}: {error}", asked.under.display());
    let outcome = trial(&asked.under, asked.seed, asked.limits).map_err(under)?;
    let Outcome { sessions, reached, difference } = outcome;
    if let Some(difference) = difference {
        let smaller = difference.smaller(&asked.under).map_err(under)?;
        save(&asked.save, &difference, &smaller)
            .map_err(|error| format!("{}: {error}", asked.save.display()))?;
        say_difference(asked, &difference, &smaller);
        return Err(format!("{} differs from the reference", asked.under.display()));
    }
    println!("{:>9}  what the sessions reached", "times");
    print!("{}", reached.summary());
    println!("{sessions} sessions of seed {}, every answer as the reference gives it", asked.seed);
    let missing = reached.missing();
    if !missing.is_empty() {
        return Err(format!("not reached: {}", missing.join("; ")));
    }
    Ok(())
}

fn say_difference(asked: &Asked, difference: &Difference, smaller: &Smaller) {
    println!("session {} of seed {} differs; made smaller it is", difference.number, asked.seed);
    println!("{}", readable(&smaller.session));
    println!("the reference prints");
    println!("{}", String::from_utf8_lossy(&smaller.expected));
    println!("the program under trial prints");
    println!("{}", String::from_utf8_lossy(&smaller.answer.printed));
    if let Some(trouble) = &smaller.answer.trouble {
        println!("and {trouble}");
    }
    println!("both sessions are in {}", asked.save.display());
}

fn save(folder: &Path, difference: &Difference, smaller: &Smaller) -> io::Result<()> {
    fs::create_dir_all(folder)?;
    fs::write(folder.join("session.bin"), &difference.session)?;
    fs::write(folder.join("smaller.bin"), &smaller.session)?;
    fs::write(folder.join("smaller.txt"), readable(&smaller.session))?;
    fs::write(folder.join("expected.txt"), &smaller.expected)?;
    fs::write(folder.join("printed.txt"), &smaller.answer.printed)
}

/// The session in numbers as far as it can be read, and its bytes.
fn readable(session: &[u8]) -> String {
    let mut lines = Vec::new();
    let trouble = pack::lines::unpack(session, &mut lines).err();
    let mut text = String::from_utf8(lines).expect("decimal numbers");
    if let Some(trouble) = trouble {
        text += &format!("# {trouble}\n");
    }
    let bytes: Vec<String> = session.iter().map(|byte| format!("{byte:02X}")).collect();
    text + "# bytes: " + &bytes.join(" ") + "\n"
}
