//! The worked canal's table and records, and short ways to write others down.

#![allow(dead_code)]

use cabinet::layout::NUMBER_BYTES;
use cabinet::{write_number, Closing, Common, Entry, Node, Record, Refusal, Release, Report, Table, Task};

pub fn task(c: u64, t: u64, d: u64, s: u64) -> Task {
    Task { c, t, d, s }
}

pub fn canal_tasks() -> [Task; 3] {
    [task(10, 100, 100, 40), task(20, 200, 200, 50), task(30, 400, 400, 40)]
}

/// m 3, timeout 2 and the worked canal's tasks.
pub fn canal() -> Table {
    Table::checked(3, 2, &canal_tasks()).expect("the worked canal's table")
}

pub fn sent(progress: u64, completed: u64, run: u64) -> Report {
    Report { progress, completed, run }
}

pub fn entry(progress: u64, completed: u64, run: u64) -> Entry {
    Some(sent(progress, completed, run))
}

pub fn record(time: u64, releases: &[(u64, u64)], entries: &[Entry]) -> Record {
    let releases = releases.iter().map(|&(task, delay)| Release { task, delay }).collect();
    Record { time, releases, entries: entries.to_vec() }
}

pub fn round_0() -> Record {
    record(0, &[(1, 0), (2, 1)], &[entry(0, 0, 0); 3])
}

pub fn round_10() -> Record {
    record(10, &[(0, 0)], &[entry(1, 8, 0), entry(0, 0, 1), entry(2, 10, 0)])
}

pub fn round_120() -> Record {
    record(120, &[(0, 0)], &[entry(3, 45, 0), entry(3, 60, 0), None])
}

/// The worked canal's session as numbers: the table, then the three records.
pub const SESSION: &[u64] = &[
    3, 2, 3, 10, 100, 100, 40, 20, 200, 200, 50, 30, 400, 400, 40, //
    0, 2, 1, 0, 2, 1, 3, 1, 0, 0, 0, 1, 0, 0, 0, 1, 0, 0, 0, //
    10, 1, 0, 0, 3, 1, 1, 8, 0, 1, 0, 0, 1, 1, 2, 10, 0, //
    120, 1, 0, 0, 3, 1, 3, 45, 0, 1, 3, 60, 0, 0,
];

/// How many of them are the table's.
pub const TABLE_NUMBERS: usize = 15;

/// Numbers as a session has them, back to back.
pub fn bytes(numbers: &[u64]) -> Vec<u8> {
    let mut bytes = Vec::new();
    for &number in numbers {
        let mut groups = [0; NUMBER_BYTES];
        let used = write_number(&mut groups, number).expect("a number below 2^63");
        bytes.extend(&groups[..used]);
    }
    bytes
}

/// A station after these rounds, none of which may be refused.
pub fn after(table: &Table, rounds: &[Record]) -> Common {
    let mut common = Common::fresh();
    for round in rounds {
        closed(table, &mut common, round);
    }
    common
}

pub fn closed(table: &Table, common: &mut Common, round: &Record) -> Closing {
    common.close(table, round).unwrap_or_else(|refusal| panic!("{round:?}: {refusal}"))
}

/// The number with which a station refuses a round; its words must stay.
pub fn refused(table: &Table, common: &Common, round: &Record) -> u64 {
    let mut changed = common.clone();
    let refusal = changed.close(table, round).expect_err("a refusal");
    assert_eq!(&changed, common, "a refusal changes nothing");
    refusal.number()
}

/// A node of the worked canal that has closed round 0.
pub fn begun(table: &Table, number: u64) -> Node {
    let mut node = Node::fresh(table, number).expect("a node of the table");
    assert_eq!(node.report(table, 0), Ok(sent(0, 0, 0)));
    node.close(table, &round_0()).expect("round 0");
    node
}

pub fn number<T: std::fmt::Debug>(reply: Result<T, Refusal>) -> u64 {
    reply.expect_err("a refusal").number()
}

/// What the session program prints for a closed round.
pub fn line(table: &Table, time: u64, common: &Common, told: &Closing) -> String {
    let classes: String = told.classes[..table.nodes()].iter().map(u8::to_string).collect();
    format!(
        "round {time} ipo {} base {} length {} toc {} nodes {classes}",
        common.offset(),
        common.base(),
        common.length(),
        common.next_start()
    )
}

pub const LINES: [&str; 3] = [
    "round 0 ipo 0 base 0 length 2 toc 2 nodes 000",
    "round 10 ipo 1 base 0 length 3 toc 2 nodes 004",
    "round 120 ipo 3 base 3 length 4 toc 122 nodes 001",
];
