//! What a picture tells, before anything has its place: scenes, the lanes of
//! the nodes, and the rounds as columns.

use cabinet::{Closing, Common, Entry, Record, Release, Report, Table};

use crate::fold::Fold;

/// What is drawn: one scene for each table.
#[derive(Clone, Debug)]
pub struct Story {
    /// Where it comes from.
    pub source: Source,
    /// In the order in which they were played.
    pub scenes: Vec<Scene>,
}

/// A session tells what was reported, a drill also what was run.
#[derive(Clone, Copy, Debug, PartialEq, Eq)]
pub enum Source {
    /// A table and records.
    Session,
    /// A script.
    Drill,
}

/// All that happened under one table.
#[derive(Clone, Debug)]
pub struct Scene {
    /// What the script says before the table, or how a session ended.
    pub caption: String,
    /// The table with the tasks' names.
    pub plan: Plan,
    /// One for each node.
    pub lanes: Vec<Lane>,
    /// From left to right.
    pub columns: Vec<Column>,
    /// The station's common record at the end.
    pub last: Common,
    /// What has no place in lanes and rounds.
    pub notes: Vec<String>,
}

/// The table, and the names that its tasks were given.
#[derive(Clone, Debug)]
pub struct Plan {
    /// As the library checked it.
    pub table: Table,
    /// A name for each task that has one.
    pub names: Vec<Option<String>>,
}

impl Plan {
    /// The task's name, else `task 2`.
    pub fn task(&self, task: u64) -> String {
        let place = usize::try_from(task).ok();
        let name = place.and_then(|place| self.names.get(place)).cloned().flatten();
        name.unwrap_or_else(|| format!("task {task}"))
    }

    /// `3:solve`.
    pub fn job(&self, position: u64, task: u64) -> String {
        format!("{position}:{}", self.task(task))
    }
}

/// Where something stands on the axis: by its time; at one time by the rounds
/// that come before it (a round has an odd rank); and at one time of one node
/// by the jobs that took it no time.
#[derive(Clone, Copy, Debug, Default, PartialEq, Eq, PartialOrd, Ord)]
pub struct Place {
    /// Microseconds.
    pub time: u64,
    /// Twice the rounds of this time before it, plus 1 for a round.
    pub rank: usize,
    /// Jobs of no length before it.
    pub step: usize,
}

/// What one node did, in order.
#[derive(Clone, Debug, Default)]
pub struct Lane {
    /// By growing place.
    pub acts: Vec<Act>,
    /// From where on the node is left behind.
    pub left_behind: Option<Place>,
}

/// One thing that a node did.
#[derive(Clone, Debug)]
pub struct Act {
    /// When.
    pub at: Place,
    /// What.
    pub what: What,
}

/// Kinds of acts.
#[derive(Clone, Debug)]
pub enum What {
    /// Starts a job, by its label and task.
    Starts(String, u64),
    /// Finishes it.
    Finishes(String, u64),
    /// Was refused a start and has to wait; why, in lines.
    Waits(Vec<String>),
    /// Was refused something else, or has a round open at the end; in lines.
    Tells(Vec<String>),
    /// Has finished a job, as it reported later.
    Done,
}

/// A column of the picture.
#[derive(Clone, Debug)]
pub enum Column {
    /// One round.
    Round(Box<Round>),
    /// A counted stretch of rounds.
    Fold(Fold),
}

impl Column {
    /// Where it stands; a fold, where its first round does.
    pub fn first(&self) -> Place {
        match self {
            Column::Round(round) => round.at,
            Column::Fold(fold) => fold.first,
        }
    }

    /// Where its last round stands.
    pub fn last(&self) -> Place {
        match self {
            Column::Round(round) => round.at,
            Column::Fold(fold) => fold.last,
        }
    }

    /// Whether something at a place is folded away in it.
    pub fn covers(&self, place: Place) -> bool {
        self.first() < place && place < self.last()
    }
}

/// A round record and what came of it.
#[derive(Clone, Debug)]
pub struct Round {
    /// Where it stands.
    pub at: Place,
    /// r, as the record says.
    pub time: u64,
    /// The one node that it went to, where it did not go to all.
    pub alone: Option<usize>,
    /// As the record says.
    pub releases: Vec<Release>,
    /// What each node said and what is held of it; none where it took no part.
    pub cells: Vec<Option<Cell>>,
    /// The number where it was refused.
    pub outcome: Result<Closed, u64>,
}

/// A round that was closed.
#[derive(Clone, Debug)]
pub struct Closed {
    /// The reply.
    pub told: Closing,
    /// The common record after it.
    pub after: Common,
}

/// A node's place in a round.
#[derive(Clone, Debug)]
pub struct Cell {
    /// 0 to 5; none where the node refused what others closed.
    pub class: Option<u8>,
    /// What was reported; none where it is missing.
    pub report: Entry,
    /// The report in words, and why it has its class.
    pub lines: Vec<String>,
}

impl Round {
    /// The line that the session program prints for it.
    pub fn line(&self) -> String {
        match &self.outcome {
            Err(number) => format!("refused {number}"),
            Ok(closed) => {
                let after = &closed.after;
                let classes = closed.told.classes[..self.cells.len()].iter();
                format!(
                    "round {} ipo {} base {} length {} toc {} nodes {}",
                    self.time,
                    after.offset(),
                    after.base(),
                    after.length(),
                    after.next_start(),
                    classes.map(u8::to_string).collect::<String>()
                )
            }
        }
    }

    /// The positions at which its releases stand. A task is released once in a
    /// round, and goes behind all others of its kind: it is the last of them.
    pub fn new_positions(&self) -> Vec<u64> {
        let Ok(Closed { after, .. }) = &self.outcome else { return Vec::new() };
        let last = |task: u64| after.order().iter().rposition(|&other| other == task);
        let places = self.releases.iter().filter_map(|release| last(release.task));
        places.map(|place| after.base() + place as u64 + 1).collect()
    }
}

/// The line that the session program prints last.
pub fn order_line(common: &Common) -> String {
    let jobs = (common.base() + 1..).zip(common.order());
    jobs.fold("order".to_string(), |line, (position, task)| format!("{line} {position}:{task}"))
}

/// What each class is called.
pub const CLASSES: [&str; 6] = ["good", "missing", "malformed", "behind", "over bound", "late"];

/// The cells of a round that was closed. `says` puts a report into words, by
/// its node.
pub fn cells(
    plan: &Plan,
    before: &Common,
    record: &Record,
    told: &Closing,
    says: impl Fn(usize) -> &'static str,
) -> Vec<Option<Cell>> {
    let cell = |(node, entry): (usize, &Entry)| {
        let class = told.classes[node];
        let mut lines = Vec::new();
        if let Some(report) = entry {
            lines.push(format!("{}{}", says(node), report_words(report)));
            lines.extend(why(plan, before, record.time, class, report));
        }
        Some(Cell { class: Some(class), report: *entry, lines })
    };
    record.entries.iter().enumerate().map(cell).collect()
}

/// `2 done at 10, run 0`.
pub fn report_words(report: &Report) -> String {
    let Report { progress, completed, run } = report;
    match (progress, completed) {
        (0, 0) => format!("0 done, run {run}"),
        _ => format!("{progress} done at {completed}, run {run}"),
    }
}

/// Why a report has its class, by the common record before the round.
fn why(plan: &Plan, before: &Common, r: u64, class: u8, report: &Report) -> Option<String> {
    match class {
        2 if report.run > 1 => Some("run is above 1".to_string()),
        2 if report.completed > r => Some(format!("that is after {r}")),
        2 => Some(format!("the order ends at {}", before.length())),
        3 => Some(format!("the base is at {}", before.base())),
        4 => over_bound(plan, before, r, report),
        5 => late(plan, before, report),
        _ => None,
    }
}

/// The first position that breaks the bound, the task that it breaks it for,
/// and by how much.
fn over_bound(plan: &Plan, before: &Common, r: u64, report: &Report) -> Option<String> {
    let positions = before.offset() + 1..=report.progress + report.run;
    let broken = |position| {
        let refusal = before.bound(&plan.table, position, r).err()?;
        Some((position, refusal.task()?))
    };
    let (position, task) = positions.into_iter().find_map(broken)?;
    let projection = before.projection(&plan.table, position).ok()?;
    let bears = before.earliest(task as usize)?.max(r) + plan.table.tasks().get(task as usize)?.s;
    let job = plan.job(position, task_at(before, position)?);
    Some(format!("{job} is {} short for {}", projection.checked_sub(bears)?, plan.task(task)))
}

fn late(plan: &Plan, before: &Common, report: &Report) -> Option<String> {
    let due = before.projection(&plan.table, report.progress).ok()?;
    if report.completed > due {
        return Some(format!("{} late: was due by {due}", report.completed - due));
    }
    let next = report.progress + 1;
    let job = plan.job(next, task_at(before, next)?);
    Some(format!("{job} was due by {}", before.projection(&plan.table, next).ok()?))
}

/// The task of a job that is kept.
fn task_at(common: &Common, position: u64) -> Option<u64> {
    let place = position.checked_sub(common.base() + 1)?;
    common.order().get(usize::try_from(place).ok()?).copied()
}
