//! "How a round is judged": classes, the new offset, the back-runner and the
//! majority notice, all by the values of B, W, O, L and E before the round.

use crate::common::Common;
use crate::sum;
use crate::table::Table;
use crate::written::{Record, Report};

/// "The reply carries one class number for each of fifteen places (places
/// beyond m hold 0), the back-runner (15 if none), and whether the number of
/// nodes in class 0 or 5 is at least half of m, rounded down, plus 1."
#[derive(Clone, Copy, Debug, PartialEq, Eq)]
pub struct Reply {
    pub classes: [u8; Table::NODES],
    pub back_runner: usize,
    pub majority: bool,
}

/// The reply, and what B, W and O become where the round is not refused.
#[derive(Clone, Copy, Debug, PartialEq, Eq)]
pub struct Judged {
    pub reply: Reply,
    pub base: u64,
    pub next_start: u64,
    pub offset: u64,
}

/// Judges a record whose r passed refusal 3 and whose entries number m.
pub fn judge(table: &Table, common: &Common, record: &Record) -> Judged {
    let mut classes = [0; Table::NODES];
    for (node, entry) in record.entries.iter().enumerate() {
        classes[node] = class(table, common, record.r, *entry);
    }
    let back = back_runner(table, common, record, &classes);
    Judged {
        reply: Reply {
            classes,
            back_runner: back.map_or(Table::NODES, |back| back.node),
            majority: majority(table, &classes),
        },
        base: back.map_or(common.base, |back| back.progress),
        next_start: back.map_or(common.next_start, |back| common.next_start.max(back.start)),
        offset: new_offset(common, record, &classes),
    }
}

/// "Each entry gets the first class that fits."
pub fn class(table: &Table, common: &Common, r: u64, entry: Option<Report>) -> u8 {
    let Some(report) = entry else { return 1 };
    if malformed(common, r, report) {
        return 2;
    }
    if report.progress < common.base {
        return 3;
    }
    if over_bound(table, common, r, report) {
        return 4;
    }
    if late(table, common, r, report) {
        return 5;
    }
    0
}

/// "run above 1, progress + run > L (as whole numbers), or completion time > r".
fn malformed(common: &Common, r: u64, report: Report) -> bool {
    let front = u128::from(report.progress) + u128::from(report.run);
    report.run > 1 || front > u128::from(common.length()) || report.completion > r
}

/// "some position from O + 1 to progress + run breaks the bound at r".
fn over_bound(table: &Table, common: &Common, r: u64, report: Report) -> bool {
    common
        .kept(table)
        .filter(|job| common.offset < job.position && job.position <= front(report))
        .any(|job| common.breaking(table, job, r).is_some())
}

/// "completion time > projection(progress), or progress < O and
/// projection(progress + 1) < r".
fn late(table: &Table, common: &Common, r: u64, report: Report) -> bool {
    if report.completion > common.projection(table, report.progress) {
        return true;
    }
    report.progress < common.offset && common.projection(table, sum(report.progress, 1)) < r
}

/// progress + run of a report that is not malformed.
fn front(report: Report) -> u64 {
    sum(report.progress, report.run)
}

/// "New O: the largest of old O and progress + run over classes 0 and 5."
fn new_offset(common: &Common, record: &Record, classes: &[u8; Table::NODES]) -> u64 {
    reports(record, classes, &[0, 5]).map(|(_, report)| front(report)).fold(common.offset, u64::max)
}

#[derive(Clone, Copy)]
struct Back {
    node: usize,
    progress: u64,
    start: u64,
}

/// "Back-runner: among class 0 the least progress; if there is none, B and W
/// stay. [...] Among equal progress the largest start counts. The nodes that
/// reach it form a set; the back-runner is the lowest-numbered node of that
/// set." The starts are compared as they are, before the larger-of with W.
fn back_runner(
    table: &Table,
    common: &Common,
    record: &Record,
    classes: &[u8; Table::NODES],
) -> Option<Back> {
    let runners = || reports(record, classes, &[0]);
    let progress = runners().map(|(_, report)| report.progress).min()?;
    let hindmost = || {
        runners()
            .filter(move |(_, report)| report.progress == progress)
            .map(|(node, report)| (node, start(table, common, record.r, report)))
    };
    let start = hindmost().map(|(_, start)| start).max()?;
    let node = hindmost().filter(|&(_, other)| other == start).map(|(node, _)| node).min()?;
    Some(Back { node, progress, start })
}

/// "Its start is r + timeout where its progress = L, else its reported
/// completion time." L is the one before the round.
fn start(table: &Table, common: &Common, r: u64, report: Report) -> u64 {
    if report.progress == common.length() {
        sum(r, table.timeout())
    } else {
        report.completion
    }
}

/// "at least half of m, rounded down, plus 1".
fn majority(table: &Table, classes: &[u8; Table::NODES]) -> bool {
    let healthy = classes[..table.nodes()].iter().filter(|&&class| class == 0 || class == 5).count();
    let needed = table.nodes() / 2 + 1;
    healthy >= needed
}

/// The reports of the nodes whose class is one of `wanted`, by node number.
fn reports<'a>(
    record: &'a Record,
    classes: &'a [u8; Table::NODES],
    wanted: &'a [u8],
) -> impl Iterator<Item = (usize, Report)> + 'a {
    record
        .entries
        .iter()
        .enumerate()
        .filter(move |(node, _)| wanted.contains(&classes[*node]))
        .filter_map(|(node, entry)| entry.map(|report| (node, report)))
}
