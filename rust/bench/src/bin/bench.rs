//! `bench`: times a session program and the reference in turn on the same two
//! sessions, after it has seen that both print the same.

use std::env;
use std::fs::{self, File};
use std::path::{Path, PathBuf};
use std::process::{Command, ExitCode, Stdio};
use std::time::{Duration, Instant};

use bench::{machine, median, rounds};

const HELP: &str = "\
bench PROGRAM [--reference PROGRAM] [--rounds N] [--times N]

Makes two sessions of N rounds (100000 where it is not given): the worked canal
going on and on, and rounds on a full order (64 tasks, 256 jobs kept, 15
reports). Runs PROGRAM and the reference on each in turn, N times (7 where it
is not given), and prints the median times, their ratio and the machine's state.

The reference is the reference-session beside this program where no other is
given. The sessions are left in target/bench.
";

struct Asked {
    program: PathBuf,
    reference: PathBuf,
    rounds: u64,
    times: usize,
}

fn main() -> ExitCode {
    if env::args().any(|argument| argument == "--help" || argument == "-h") {
        print!("{HELP}");
        return ExitCode::SUCCESS;
    }
    match asked().and_then(|asked| bench(&asked)) {
        Ok(()) => ExitCode::SUCCESS,
        Err(message) => {
            eprintln!("bench: {message}");
            ExitCode::FAILURE
        }
    }
}

fn asked() -> Result<Asked, String> {
    let own = env::current_exe().map_err(|error| error.to_string())?;
    let mut asked = Asked {
        program: PathBuf::new(),
        reference: own.with_file_name("reference-session"),
        rounds: 100_000,
        times: 7,
    };
    let mut arguments = env::args().skip(1);
    while let Some(argument) = arguments.next() {
        let mut value = || arguments.next().ok_or(format!("{argument} needs a value"));
        let number = |value: String| value.parse().map_err(|_| format!("{value} is no number"));
        match argument.as_str() {
            "--reference" => asked.reference = value()?.into(),
            "--rounds" => asked.rounds = number(value()?)?,
            "--times" => asked.times = number(value()?)?.max(1) as usize,
            option if option.starts_with('-') => {
                return Err(format!("unknown option {option}; --help says more"))
            }
            _ => asked.program = argument.into(),
        }
    }
    if asked.program.as_os_str().is_empty() {
        return Err("which program? --help says more".to_string());
    }
    Ok(asked)
}

fn bench(asked: &Asked) -> Result<(), String> {
    let folder = Path::new("target/bench");
    fs::create_dir_all(folder).map_err(|error| format!("{}: {error}", folder.display()))?;
    print!("{}", machine::state());
    println!("under measure  {}", asked.program.display());
    println!("reference      {}", asked.reference.display());
    for (name, session) in [("canal", rounds::canal(asked.rounds)), ("full", rounds::full(asked.rounds))] {
        let path = folder.join(format!("{name}.bin"));
        fs::write(&path, &session).map_err(|error| format!("{}: {error}", path.display()))?;
        println!(
            "\n{name}: {} rounds, {} bytes, medians of {} runs",
            asked.rounds,
            session.len(),
            asked.times
        );
        compare(asked, &path)?;
    }
    println!("\nload average now {}", machine::load());
    Ok(())
}

/// Both programs print the same; then both in turn, so that whatever else the
/// machine does falls on both.
fn compare(asked: &Asked, session: &Path) -> Result<(), String> {
    if printed(&asked.program, session)? != printed(&asked.reference, session)? {
        return Err(format!("the two programs print different lines for {}", session.display()));
    }
    let (mut ours, mut theirs) = (Vec::new(), Vec::new());
    for _ in 0..asked.times {
        ours.push(time(&asked.program, session)?);
        theirs.push(time(&asked.reference, session)?);
    }
    let (ours, theirs) = (Taken::median(&ours), Taken::median(&theirs));
    ours.say("under measure", asked.rounds);
    theirs.say("reference", asked.rounds);
    let ratio = |theirs: Duration, ours: Duration| theirs.as_secs_f64() / ours.as_secs_f64();
    println!("  its rate is {:.2} of the reference's by the clock", ratio(theirs.clock, ours.clock));
    println!("  and {:.2} by processor time", ratio(theirs.processor, ours.processor));
    Ok(())
}

/// What a run took: by the clock, and of the processor. On a machine that does
/// other things the second says more, to a hundredth of a second.
#[derive(Clone, Copy)]
struct Taken {
    clock: Duration,
    processor: Duration,
}

impl Taken {
    fn median(all: &[Taken]) -> Taken {
        Taken {
            clock: median(all.iter().map(|taken| taken.clock).collect()),
            processor: median(all.iter().map(|taken| taken.processor).collect()),
        }
    }

    fn say(self, name: &str, rounds: u64) {
        let milliseconds = |time: Duration| time.as_secs_f64() * 1000.0;
        println!(
            "  {name:<14} {:>9.0} ms by the clock {:>9.0} ms of the processor {:>10.0} rounds a second of it",
            milliseconds(self.clock),
            milliseconds(self.processor),
            rounds as f64 / self.processor.as_secs_f64()
        );
    }
}

fn printed(program: &Path, session: &Path) -> Result<Vec<u8>, String> {
    let output = command(program, session)?.output().map_err(|error| tell(program, error))?;
    if !output.status.success() {
        return Err(format!("{} ended with {}", program.display(), output.status));
    }
    Ok(output.stdout)
}

fn time(program: &Path, session: &Path) -> Result<Taken, String> {
    let mut command = command(program, session)?;
    command.stdout(Stdio::null());
    let before = machine::children();
    let begun = Instant::now();
    command.status().map_err(|error| tell(program, error))?;
    Ok(Taken { clock: begun.elapsed(), processor: machine::children() - before })
}

fn command(program: &Path, session: &Path) -> Result<Command, String> {
    let mut command = Command::new(program);
    command.stdin(File::open(session).map_err(|error| tell(session, error))?);
    Ok(command)
}

fn tell(path: &Path, error: std::io::Error) -> String {
    format!("{}: {error}", path.display())
}
