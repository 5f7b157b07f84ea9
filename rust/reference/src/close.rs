//! What closing a round does to a common record, with or without a node:
//! refusals 3, 14, 15, 16 and 17 in this order, then insertion and E.

use crate::common::Common;
use crate::judge::{judge, Judged, Reply};
use crate::refusal::Refusal;
use crate::table::Table;
use crate::written::{Record, Release};
use crate::{sum, LATEST_TIME};

/// Applies a record to a common record, or refuses it and changes nothing.
/// A station calls this; a node has its own refusals before it.
pub fn close(table: &Table, common: &mut Common, record: &Record) -> Result<Reply, Refusal> {
    check_time(table, common, record.r)?;
    check_list(table, record)?;
    let earliest = released(table, common, record)?;
    let judged = judge(table, common, record);
    check_room(common, record, &judged)?;
    move_on(common, record.r, &judged);
    for release in &record.releases {
        insert(common, release.task as usize);
    }
    common.earliest = earliest;
    Ok(judged.reply)
}

/// Refusals 3 and 14.
fn check_time(table: &Table, common: &Common, r: u64) -> Result<(), Refusal> {
    if r > LATEST_TIME {
        return Err(Refusal::TimeTooLate);
    }
    match common.last_round {
        Some(last) if r < sum(last, table.timeout()) => Err(Refusal::RoundTooSoon),
        _ => Ok(()),
    }
}

/// Refusal 15: "over 64 releases, entry count not m, unknown task, first delay
/// not 0, delay >= timeout, or delays that fall", over the whole list.
fn check_list(table: &Table, record: &Record) -> Result<(), Refusal> {
    if record.releases.len() > Common::TASKS {
        return Err(Refusal::TooManyReleases);
    }
    if record.entries.len() != table.nodes() {
        return Err(Refusal::EntryCountNotNodes);
    }
    let mut before = None;
    for release in &record.releases {
        check_release(table, before, release)?;
        before = Some(release.delay);
    }
    Ok(())
}

fn check_release(table: &Table, before: Option<u64>, release: &Release) -> Result<(), Refusal> {
    if release.task >= table.tasks().len() as u64 {
        return Err(Refusal::UnknownTask);
    }
    if before.is_none() && release.delay != 0 {
        return Err(Refusal::FirstDelayNotZero);
    }
    if release.delay >= table.timeout() {
        return Err(Refusal::DelayNotBelowTimeout);
    }
    if before.is_some_and(|before| release.delay < before) {
        return Err(Refusal::DelaysFall);
    }
    Ok(())
}

/// Refusal 16, "release time < E(task), earlier releases of the list already
/// counted", and what E becomes: "E(task) becomes release time + T".
fn released(table: &Table, common: &Common, record: &Record) -> Result<[u64; Common::TASKS], Refusal> {
    let mut earliest = common.earliest;
    for release in &record.releases {
        let task = release.task as usize;
        let time = sum(record.r, release.delay);
        if time < earliest[task] {
            return Err(Refusal::ReleaseTooSoon);
        }
        earliest[task] = sum(time, table.tasks()[task].distance);
    }
    Ok(earliest)
}

/// Refusal 17: "L + releases - new B > 256".
fn check_room(common: &Common, record: &Record, judged: &Judged) -> Result<(), Refusal> {
    let kept = sum(common.length(), record.releases.len() as u64) - judged.base;
    if kept > Common::PLACES as u64 {
        return Err(Refusal::OrderFull);
    }
    Ok(())
}

/// "Jobs at positions up to B are dropped."
fn move_on(common: &mut Common, r: u64, judged: &Judged) {
    let dropped = judged.base - common.base;
    common.jobs.drain(..dropped as usize);
    common.base = judged.base;
    common.next_start = judged.next_start;
    common.offset = judged.offset;
    common.last_round = Some(r);
}

/// "past O, behind the last job there of the same or higher priority, ahead of
/// the rest. With none such it stands at O + 1."
fn insert(common: &mut Common, task: usize) {
    let fixed = (common.offset - common.base) as usize;
    let behind = common.jobs[fixed..].iter().rposition(|&other| other <= task);
    let place = behind.map_or(fixed, |place| fixed + place + 1);
    common.jobs.insert(place, task);
}
