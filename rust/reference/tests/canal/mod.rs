//! The worked canal's table and records, and short ways to write others down.

#![allow(dead_code)]

use reference::{close, Common, Record, Release, Reply, Report, Table, Task};

pub fn task(execution: u64, distance: u64, deadline: u64, slack: u64) -> Task {
    Task { execution, distance, deadline, slack }
}

pub fn canal_tasks() -> Vec<Task> {
    vec![task(10, 100, 100, 40), task(20, 200, 200, 50), task(30, 400, 400, 40)]
}

/// m 3, timeout 2 and the worked canal's tasks.
pub fn canal() -> Table {
    Table::check(3, 2, &canal_tasks()).expect("the worked canal's table")
}

pub fn report(progress: u64, completion: u64, run: u64) -> Option<Report> {
    Some(Report { progress, completion, run })
}

pub fn record(r: u64, releases: &[(u64, u64)], entries: &[Option<Report>]) -> Record {
    let releases = releases.iter().map(|&(task, delay)| Release { task, delay }).collect();
    Record { r, releases, entries: entries.to_vec() }
}

/// The worked canal's first two records.
pub fn round_0() -> Record {
    record(0, &[(1, 0), (2, 1)], &[report(0, 0, 0); 3])
}

pub fn round_10() -> Record {
    record(10, &[(0, 0)], &[report(1, 8, 0), report(0, 0, 1), report(2, 10, 0)])
}

/// A common record after these rounds, none of which may be refused.
pub fn after(table: &Table, rounds: &[Record]) -> Common {
    let mut common = Common::fresh();
    for round in rounds {
        closed(table, &mut common, round);
    }
    common
}

pub fn closed(table: &Table, common: &mut Common, round: &Record) -> Reply {
    close(table, common, round).unwrap_or_else(|refusal| panic!("{round:?} was refused: {refusal:?}"))
}

/// The number with which a round is refused; the record must stay as it was.
pub fn refused(table: &Table, common: &Common, round: &Record) -> u8 {
    let mut changed = common.clone();
    let refusal = close(table, &mut changed, round).expect_err("a refusal");
    assert_eq!(&changed, common, "a refusal changes nothing");
    refusal.number()
}
