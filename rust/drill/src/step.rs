//! What a command does: the library is asked, and its reply kept as it is.

use std::rc::Rc;

use cabinet::{Closing, Common, Open, Record, Refusal, Report, Table, Task};

use crate::command::{record, Command};
use crate::state::{Job, Plan, Seat, State};

/// What was answered to a command.
#[derive(Clone, Debug, PartialEq, Eq)]
pub enum Reply {
    /// To a table.
    Table(Result<(), Refusal>),
    /// To a start: the job; or the refusal, and with 9 what is missing.
    Start(Result<Job, (Refusal, Option<Short>)>),
    /// To a finish: the job.
    Finish(Result<Job, Refusal>),
    /// To a report: what the node sends. The lock is progress + run.
    Report(Result<Report, Refusal>),
    /// To a round record.
    Close(Close),
    /// To a question: it changes nothing, and its lines are all there is.
    Question,
}

/// Why the bound does not hold for a job that was to be started.
#[derive(Clone, Copy, Debug, PartialEq, Eq)]
pub struct Short {
    /// The job that must wait.
    pub job: Job,
    /// Its projection.
    pub projection: u64,
    /// The lowest-numbered task that breaks the bound.
    pub task: u64,
    /// That task's earliest release.
    pub earliest: u64,
    /// That task's slack.
    pub slack: u64,
    /// The projection less earliest release and slack.
    pub missing: u64,
    /// When the bound holds for every task, as things stand; none where that is
    /// past the last time of all.
    pub from: Option<u64>,
}

/// What was answered to a round record.
#[derive(Clone, Debug, PartialEq, Eq)]
pub struct Close {
    /// The record, with what the nodes sent filled in.
    pub record: Record,
    /// The station's answer; none where one node closes alone.
    pub station: Option<Result<Closing, Refusal>>,
    /// The answer of each node that the record went to.
    pub nodes: Vec<(usize, Result<Closing, Refusal>)>,
}

/// Does what a command asks.
pub(crate) fn step(state: &mut Option<State>, command: &Command) -> Reply {
    if let Command::Table { nodes, timeout, tasks } = command {
        return Reply::Table(fresh(*nodes, *timeout, tasks).map(|begun| *state = Some(begun)));
    }
    let Some(state) = state else { return Reply::Question };
    let plan = Rc::clone(&state.plan);
    match command {
        Command::Start { node, time } => Reply::Start(start(&plan.table, seat(state, *node), *time)),
        Command::Finish { node, time } => Reply::Finish(finish(&plan.table, seat(state, *node), *time)),
        Command::Report { node, time } => Reply::Report(report(&plan.table, seat(state, *node), *time)),
        Command::Close { node, time, releases, entries } => {
            Reply::Close(close(&plan.table, state, *node, record(*time, releases, entries)))
        }
        _ => Reply::Question,
    }
}

fn fresh(nodes: u64, timeout: u64, tasks: &[(Option<String>, Task)]) -> Result<State, Refusal> {
    let (names, tasks): (Vec<_>, Vec<_>) = tasks.iter().cloned().unzip();
    let table = Table::checked(nodes, timeout, &tasks)?;
    Ok(State::fresh(Plan { table, names }))
}

fn seat(state: &mut State, node: usize) -> &mut Seat {
    Rc::make_mut(&mut state.seats[node])
}

fn start(table: &Table, seat: &mut Seat, now: u64) -> Result<Job, (Refusal, Option<Short>)> {
    let position = seat.node.progress() + 1;
    match seat.node.start(table, now) {
        Ok(task) => {
            let job = Job { position, task };
            seat.started.push(job);
            Ok(job)
        }
        Err(refusal) => Err((refusal, short(table, &seat.node.common(), position, now, refusal))),
    }
}

/// What is missing where the library refuses with 9.
fn short(table: &Table, common: &Common, position: u64, now: u64, refusal: Refusal) -> Option<Short> {
    let task = refusal.task().filter(|_| refusal.number() == 9)?;
    let place = position.checked_sub(common.base() + 1)?;
    let job = Job { position, task: *common.order().get(place as usize)? };
    let projection = common.projection(table, position).ok()?;
    let earliest = common.earliest(task as usize)?.max(now);
    let slack = table.tasks().get(task as usize)?.s;
    let missing = projection.checked_sub(earliest + slack)?;
    let from = holds_from(table, common, position, projection, now);
    Some(Short { job, projection, task, earliest, slack, missing, from })
}

/// The first time from `now` on at which the library finds the bound kept. A
/// task that breaks it is content from projection less slack on, so each is met
/// at most once.
fn holds_from(table: &Table, common: &Common, position: u64, projection: u64, now: u64) -> Option<u64> {
    let tasks = table.tasks();
    let mut time = now;
    for _ in 0..=tasks.len() {
        match common.bound(table, position, time) {
            Ok(()) => return Some(time),
            Err(refusal) => time = projection.checked_sub(tasks.get(refusal.task()? as usize)?.s)?,
        }
    }
    None
}

fn finish(table: &Table, seat: &mut Seat, now: u64) -> Result<Job, Refusal> {
    seat.node.finish(table, now)?;
    Ok(*seat.started.last().expect("what runs was started"))
}

fn report(table: &Table, seat: &mut Seat, time: u64) -> Result<Report, Refusal> {
    let sent = seat.node.report(table, time)?;
    seat.sent = Some(Open { time, sent });
    Ok(sent)
}

fn close(table: &Table, state: &mut State, alone: Option<usize>, record: Record) -> Close {
    let numbers: Vec<usize> = match alone {
        Some(node) => vec![node],
        None => (0..state.seats.len()).filter(|&n| state.seats[n].node.open_round().is_some()).collect(),
    };
    let station = alone.is_none().then(|| Rc::make_mut(&mut state.station).close(table, &record));
    let mut nodes = Vec::new();
    for number in numbers {
        nodes.push((number, seat(state, number).node.close(table, &record)));
    }
    Close { record, station, nodes }
}
