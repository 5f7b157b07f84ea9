//! A session's bytes as a story. They are read by the hand-written reader,
//! which knows the byte at which a fault stands; every record is judged by the
//! library.

use std::fmt;
use std::io::{self, BufRead};

use cabinet::layout::{NODES, RELEASES};
use cabinet::{Common, Entry, Record, Release, Report, Table, Task};
use reference::session::read_table;
use reference::written::{read_record, Bytes, Fault};

use crate::fold::{Folding, Keep};
use crate::story::{cells, Act, Closed, Column, Lane, Place, Plan, Round, Scene, Source, Story, What};
use crate::text::counted;

/// Why there is nothing to draw.
#[derive(Debug)]
pub enum Trouble {
    /// The input is damaged: where, and why.
    Damaged(String),
    /// The input could not be read.
    Input(io::Error),
}

impl fmt::Display for Trouble {
    fn fmt(&self, out: &mut fmt::Formatter) -> fmt::Result {
        match self {
            Trouble::Damaged(why) => write!(out, "{why}"),
            Trouble::Input(error) => write!(out, "{error}"),
        }
    }
}

/// Told how far the reading is: rounds of a session or lines of a script, and
/// bytes.
pub type Watch<'a> = dyn FnMut(u64, u64) + 'a;

/// Reads and judges a whole session. A record that is refused ends it, as it
/// ends the session program; damaged bytes leave nothing to draw.
pub fn story<S: BufRead>(source: S, keep: Keep, watch: &mut Watch) -> Result<Story, Trouble> {
    let mut bytes = Bytes::new(source);
    let table = read_table(&mut bytes).map_err(|fault| trouble(&bytes, fault, "the task table"))?;
    let table = checked(&table)?;
    let plan = Plan { names: vec![None; table.task_count()], table };
    let mut station = Common::fresh();
    let mut rounds = Folding::new(keep);
    let mut count = 0;
    let mut at = None;
    while !bytes.at_end().map_err(Trouble::Input)? {
        count += 1;
        let within = format!("record {count}, which begins at byte {}", bytes.taken());
        let read = read_record(&mut bytes, RELEASES, NODES);
        let record = record(read.map_err(|fault| trouble(&bytes, fault, &within))?);
        let round = round(&plan, &mut station, &record, at);
        at = Some(round.at);
        let refused = round.outcome.is_err();
        rounds.push(round);
        watch(count, bytes.taken());
        if refused {
            break;
        }
    }
    let columns = rounds.columns();
    let lanes = (0..plan.table.nodes()).map(|node| lane(node, &columns)).collect();
    let caption = caption(count, columns.last());
    let scene = Scene { caption, plan, lanes, columns, last: station, notes: Vec::new() };
    Ok(Story { source: Source::Session, scenes: vec![scene] })
}

/// How the session ended.
fn caption(records: u64, last: Option<&Column>) -> String {
    let refused = match last {
        Some(Column::Round(round)) => round.outcome.as_ref().err(),
        _ => None,
    };
    match refused {
        None => format!("A session of {} rounds.", counted(records)),
        Some(number) => format!(
            "A session of {} rounds, and a record that was refused {number}, which ends it.",
            counted(records - 1)
        ),
    }
}

/// The table once more, by the library.
fn checked(table: &reference::Table) -> Result<Table, Trouble> {
    let task = |task: &reference::Task| Task {
        c: task.execution,
        t: task.distance,
        d: task.deadline,
        s: task.slack,
    };
    let tasks: Vec<Task> = table.tasks().iter().map(task).collect();
    Table::checked(table.nodes() as u64, table.timeout(), &tasks)
        .map_err(|refusal| Trouble::Damaged(format!("the task table: {refusal}")))
}

fn record(read: reference::Record) -> Record {
    let release = |release: &reference::Release| Release { task: release.task, delay: release.delay };
    let report = |report: reference::Report| Report {
        progress: report.progress,
        completed: report.completion,
        run: report.run,
    };
    let entries: Vec<Entry> = read.entries.iter().map(|entry| entry.map(report)).collect();
    Record { time: read.r, releases: read.releases.iter().map(release).collect(), entries }
}

/// A record that is refused is drawn where the session stood when it came.
fn round(plan: &Plan, station: &mut Common, record: &Record, before: Option<Place>) -> Round {
    let stood = station.clone();
    let outcome = station.close(&plan.table, record);
    let time = match (&outcome, before) {
        (Err(_), Some(before)) => before.time,
        _ => record.time,
    };
    let rank = before.filter(|before| before.time == time).map_or(1, |before| before.rank + 2);
    let cells = match &outcome {
        Ok(told) => cells(plan, &stood, record, told, |_| ""),
        Err(_) => vec![None; plan.table.nodes()],
    };
    Round {
        at: Place { time, rank, step: 0 },
        time: record.time,
        alone: None,
        releases: record.releases.clone(),
        cells,
        outcome: match outcome {
            Ok(told) => Ok(Closed { told, after: station.clone() }),
            Err(refusal) => Err(refusal.number()),
        },
    }
}

/// What a node has finished, as its reports say that are believed. A finish at
/// the time of an earlier round came after that round's report.
fn lane(node: usize, columns: &[Column]) -> Lane {
    let mut acts = Vec::new();
    let mut told = None;
    for (index, column) in columns.iter().enumerate() {
        let Some(report) = believed(node, column) else { continue };
        if report.progress == 0 || told == Some(report) {
            continue;
        }
        told = Some(report);
        let earlier = columns[..index].iter().filter(|column| column.first().time == report.completed);
        let at = Place { time: report.completed, rank: 2 * earlier.count(), step: 0 };
        acts.push(Act { at, what: What::Done });
    }
    acts.retain(|act| !columns.iter().any(|column| column.covers(act.at)));
    acts.sort_by_key(|act| act.at);
    Lane { acts, left_behind: None }
}

/// Progress and completion time of a report in class 0 or 5.
fn believed(node: usize, column: &Column) -> Option<Report> {
    let Column::Round(round) = column else { return None };
    let cell = round.cells[node].as_ref()?;
    cell.class.filter(|class| [0, 5].contains(class))?;
    cell.report.map(|report| Report { run: 0, ..report })
}

/// Where a fault stands: the missing byte for 18, the last byte taken for 19,
/// else the number's first byte. A broken table rule has its task for a place.
fn trouble<S: BufRead>(bytes: &Bytes<S>, fault: Fault, within: &str) -> Trouble {
    let refusal = match fault {
        Fault::Source(error) => return Trouble::Input(error),
        Fault::Refused(refusal) => refusal,
    };
    let number = refusal.number();
    let names = explain::refusals();
    let name = names.iter().find(|known| known.number == u64::from(number)).map_or("", |known| known.name);
    let place = match (refusal.task(), number) {
        (Some(task), _) => format!("task {task}"),
        (None, 18) => format!("byte {}", bytes.taken()),
        (None, 19) => format!("byte {}", bytes.taken() - 1),
        (None, _) => format!("byte {}", bytes.begun()),
    };
    Trouble::Damaged(format!("{place}: refused {number}, {name} (in {within})"))
}
