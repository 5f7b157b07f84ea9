//! `bench-growth`: how the time of a close grows with the jobs, the tasks and the
//! reports, and the time of each call once, beside an earlier library's.

use std::env;
use std::path::{Path, PathBuf};
use std::process::ExitCode;
use std::time::Duration;

use bench::calls::{cases, station};
use bench::growth::{loads, Load, Stand, REPORTS};
use bench::machine;
use bench::measure::{agree, depth, in_turn, ROW};
use bench::opened::Opened;
use reference::judge::judge;
use trials::doors::library::library;
use trials::doors::{Call, Doors, Lent};

const HELP: &str = "\
bench-growth [--before LIBRARY.so] [--after LIBRARY.so] [--times N]

Times a station's close on states that the reference's closes gave: 8 and 64
tasks; 256 jobs kept, of which 16, 64 or 256 stand past O, and 16 or 64 kept, all
past O; 1, 5 or 15 reports of 15 nodes, near (a few positions past B), far (at the
last positions) or spread over the order, those past position 200 over the bound.
No job is released in the round. Then the check of a table by its tasks, and each
call of bench-doors, with the stack that it wrote to in the later library.

Before a case is timed, every library has told what the reference tells and left
the same words, and the call was accepted. The libraries are called in turn, N
times (15 where it is not given) a row of calls each; the times are medians in
nanoseconds, the ratio is the time before over the time after.

A LIBRARY.so is a libcabinet.a as a shared object (gcc -shared -Wl,-Bsymbolic,
the archive between -Wl,--whole-archive and -Wl,--no-whole-archive), opened and
called by function pointers. Where --after is not given it is the library that is
linked, whose calls are a few nanoseconds shorter: give both to compare two.
Without --before there is one column, and no ratio.
";

struct Asked {
    before: Option<PathBuf>,
    after: Option<PathBuf>,
    times: usize,
}

fn main() -> ExitCode {
    if env::args().any(|argument| argument == "--help" || argument == "-h") {
        print!("{HELP}");
        return ExitCode::SUCCESS;
    }
    match asked().and_then(|asked| growth(&asked)) {
        Ok(()) => ExitCode::SUCCESS,
        Err(message) => {
            eprintln!("bench-growth: {message}");
            ExitCode::FAILURE
        }
    }
}

fn asked() -> Result<Asked, String> {
    let mut asked = Asked { before: None, after: None, times: 15 };
    let mut arguments = env::args().skip(1);
    while let Some(argument) = arguments.next() {
        let mut value = || arguments.next().ok_or(format!("{argument} needs a value"));
        let number = |value: String| value.parse::<usize>().map_err(|_| format!("{value} is no number"));
        match argument.as_str() {
            "--before" => asked.before = Some(value()?.into()),
            "--after" => asked.after = Some(value()?.into()),
            "--times" => asked.times = number(value()?)?.max(1),
            other => return Err(format!("what is {other}? --help says more")),
        }
    }
    Ok(asked)
}

fn growth(asked: &Asked) -> Result<(), String> {
    let after = asked.after.as_deref().map_or(Ok(Box::new(library) as Box<Doors>), opened)?;
    let before = asked.before.as_deref().map(opened).transpose()?;
    let sides: Vec<&Doors> = before.iter().chain([&after]).map(Box::as_ref).collect();
    let bench = Bench { sides: &sides, times: asked.times };
    print!("{}", machine::state());
    let named = |path: &Option<PathBuf>, none: &str| {
        path.as_ref().map_or(none.to_string(), |path| path.display().to_string())
    };
    println!("before         {}", named(&asked.before, "none"));
    println!("after          {}", named(&asked.after, "the library that is linked"));
    println!("times          nanoseconds, medians of {} rows of {ROW} calls", asked.times);
    bench.rounds();
    bench.tables();
    bench.calls();
    println!("\nload average now {}", machine::load());
    Ok(())
}

fn opened(path: &Path) -> Result<Box<Doors>, String> {
    let opened = Opened::open(path)?;
    Ok(Box::new(move |call, lent: &mut Lent| opened.call(call, lent)))
}

/// The libraries, the earlier one first where there is one.
struct Bench<'a> {
    sides: &'a [&'a Doors],
    times: usize,
}

impl Bench<'_> {
    fn rounds(&self) {
        println!("\nclose_station, by the number of reports\n");
        let counts = REPORTS.map(|reports| format!(", {reports}"));
        let mut rows = vec![self.heading(&["tasks", "jobs kept", "past O", "reports"], &counts)];
        for load in loads() {
            let medians = REPORTS.map(|reports| self.in_turn(&close(load, reports)));
            let counts = [load.tasks, load.jobs, load.past].map(|count| count.to_string());
            rows.push([&counts[..], &[load.stand.name().to_string()], &cells(&medians)].concat());
        }
        print_table(&rows);
    }

    fn tables(&self) {
        println!("\ncheck_table, by the number of tasks\n");
        let mut rows = vec![self.heading(&["tasks"], &[String::new()])];
        for tasks in [8, 16, 32, 64] {
            let load = Load { tasks, jobs: tasks, past: tasks, stand: Stand::Far };
            let (_, lent) = close(load, 1);
            let medians = self.in_turn(&(Call::CheckTable, lent));
            rows.push([&[tasks.to_string()], &cells(&[medians])[..]].concat());
        }
        print_table(&rows);
    }

    fn calls(&self) {
        println!("\neach call, as bench-doors makes it\n");
        let mut rows = vec![self.heading(&["call", "stack, bytes"], &[String::new()])];
        let &after = self.sides.last().expect("a library");
        for case in cases() {
            let medians = self.in_turn(&case);
            let (call, lent) = case;
            let deep = grouped(depth(after, call, &lent) as u128);
            rows.push([&[call.name().to_string(), deep], &cells(&[medians])[..]].concat());
        }
        print_table(&rows);
    }

    /// The times of each side, after all have been seen to tell what the reference
    /// tells, the classes of a round among it.
    fn in_turn(&self, (call, lent): &(Call, Lent)) -> Vec<Duration> {
        agree(self.sides, *call, lent);
        in_turn(self.times, self.sides, *call, lent)
    }

    /// What a row is of, and then the names of its `cells`.
    fn heading(&self, of: &[&str], counts: &[String]) -> Vec<String> {
        let names: &[&str] = if self.sides.len() == 2 { &["before", "after", "ratio"] } else { &["ours"] };
        let names = names.iter().flat_map(|name| counts.iter().map(move |count| format!("{name}{count}")));
        of.iter().map(|name| name.to_string()).chain(names).collect()
    }
}

/// The close of a load, whose reports have the classes that it is for.
fn close(load: Load, reports: usize) -> (Call, Lent) {
    let ready = load.ready(reports);
    let judged = judge(&ready.table, &ready.common, &ready.record);
    assert_eq!(judged.reply.classes[..], load.classes(&ready.record), "{load:?}");
    station(&ready)
}

/// The times of each side one after the other, and then the ratios of two sides.
fn cells(medians: &[Vec<Duration>]) -> Vec<String> {
    let sides = medians[0].len();
    let times = |side: usize| medians.iter().map(move |times| grouped(times[side].as_nanos()));
    let mut cells: Vec<String> = (0..sides).flat_map(times).collect();
    if sides == 2 {
        let ratio = |times: &Vec<Duration>| times[0].as_secs_f64() / times[1].as_secs_f64();
        cells.extend(medians.iter().map(|times| format!("{:.2}", ratio(times))));
    }
    cells
}

/// A number with a comma before each three digits, as the documents write it.
fn grouped(number: u128) -> String {
    if number < 1000 {
        number.to_string()
    } else {
        format!("{},{:03}", grouped(number / 1000), number % 1000)
    }
}

/// A table that can be pasted into a document; the first row is its heading.
fn print_table(rows: &[Vec<String>]) {
    let width = |column: usize| rows.iter().map(|row| row[column].len()).max().unwrap_or(0);
    let widths: Vec<usize> = (0..rows[0].len()).map(width).collect();
    for (place, row) in rows.iter().enumerate() {
        let padded: Vec<String> =
            row.iter().zip(&widths).map(|(cell, &width)| format!("{cell:>width$}")).collect();
        println!("| {} |", padded.join(" | "));
        if place == 0 {
            println!("|{}", "---|".repeat(row.len()));
        }
    }
}
