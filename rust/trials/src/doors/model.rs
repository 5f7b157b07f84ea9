//! Each door as the header has it, over the reference: what the library has to
//! tell, and what it has to leave in what was lent.

pub mod words;

use reference::session::read_table;
use reference::written::{self, read_record, Bytes, Fault};
use reference::{close, Common, Node, Record, Refusal, Reply, Report, Table};

use crate::doors::layout::*;
use crate::doors::{Call, Lent, Told};
use words::*;

/// A refusal's number, and the task beside it.
#[derive(Clone, Copy)]
struct No {
    number: u64,
    task: u64,
}

fn no(number: u64) -> No {
    No { number, task: 0 }
}

impl From<Refusal> for No {
    fn from(refusal: Refusal) -> No {
        No { number: refusal.number().into(), task: refusal.task().unwrap_or(0) as u64 }
    }
}

impl From<Fault> for No {
    fn from(fault: Fault) -> No {
        match fault {
            Fault::Refused(refusal) => refusal.into(),
            Fault::Source(error) => unreachable!("memory can always be read: {error}"),
        }
    }
}

/// The doors over the reference.
pub fn model(call: Call, lent: &mut Lent) -> Told {
    match call {
        Call::CheckTable => value(check_table(lent)),
        Call::FreshCommon => value(fresh_common(lent)),
        Call::FreshNode { number } => value(fresh_node(lent, number)),
        Call::Start { now } => value(with_node(lent, |held| held.start(now))),
        Call::Finish { now } => value(with_node(lent, |held| held.finish(now))),
        Call::Report { r } => reported(with_node(lent, |held| held.report(r))),
        Call::Close { r } => closing(close_node(lent, r)),
        Call::CloseStation { r } => closing(close_station(lent, r)),
        Call::Projection { position } => value(watched(lent).and_then(|held| held.projection(position))),
        Call::Bound { position, time } => value(watched(lent).and_then(|held| held.bound(position, time))),
        Call::Order => value(order(lent)),
        Call::ReadNumber => number(written::number_from(&lent.bytes).map_err(No::from)),
        Call::WriteNumber { number } => value(wrote(written::write_number(number, &mut lent.bytes))),
        Call::ReadTable => value(table_from(lent)),
        Call::ReadRecord => read(record_into(lent)),
        Call::WriteRecord { r } => value(write_record(lent, r)),
    }
}

fn value(answer: Result<u64, No>) -> Told {
    match answer {
        Ok(value) => Told::Value { refusal: 0, value },
        Err(no) => Told::Value { refusal: no.number, value: no.task },
    }
}

fn number(answer: Result<(u64, usize), No>) -> Told {
    match answer {
        Ok((value, used)) => Told::Number { refusal: 0, value, used: used as u64 },
        Err(no) => Told::Number { refusal: no.number, value: 0, used: 0 },
    }
}

fn reported(answer: Result<Report, No>) -> Told {
    let (refusal, sent) = match answer {
        Ok(sent) => (0, sent),
        Err(no) => (no.number, Report::default()),
    };
    Told::Report { refusal, progress: sent.progress, completed: sent.completion, run: sent.run }
}

/// The judgement, and whether the node is left behind.
fn closing(answer: Result<(Reply, bool), No>) -> Told {
    match answer {
        Ok((reply, left)) => Told::Closing {
            refusal: 0,
            back: reply.back_runner as u64,
            majority: reply.majority.into(),
            left: left.into(),
            classes: reply.classes,
        },
        Err(no) => Told::Closing {
            refusal: no.number,
            back: NODES as u64,
            majority: 0,
            left: 0,
            classes: [0; NODES],
        },
    }
}

/// The record, whose lists are then in the lent ones, and the bytes used.
fn read(answer: Result<(Record, u64), No>) -> Told {
    match answer {
        Ok((record, used)) => Told::Record {
            refusal: 0,
            time: record.r,
            releases: record.releases.len() as u64,
            entries: record.entries.len() as u64,
            used,
        },
        Err(no) => Told::Record { refusal: no.number, time: 0, releases: 0, entries: 0, used: 0 },
    }
}

/// A table with a node and its common record, or with a common record alone.
#[derive(Clone, Debug)]
pub struct Held {
    pub table: Table,
    pub node: Option<Node>,
    pub common: Common,
}

impl Held {
    /// A fresh node, or a fresh station.
    pub fn fresh(table: &Table, number: Option<u64>) -> Held {
        let node = number.map(|number| Node::fresh(table, number).expect("a node of the table"));
        Held { table: table.clone(), node, common: Common::fresh() }
    }

    pub fn words(&self) -> Vec<u64> {
        match &self.node {
            Some(node) => node_words(node, &self.common).to_vec(),
            None => common_words(&self.common).to_vec(),
        }
    }

    /// What a call on this node or common record tells. Those that look at a
    /// common record look at a node's own one.
    pub fn tell(&mut self, call: Call, record: &Record) -> Told {
        match call {
            Call::Start { now } => value(self.start(now)),
            Call::Finish { now } => value(self.finish(now)),
            Call::Report { r } => reported(self.report(r)),
            Call::Close { .. } => closing(self.close(record)),
            Call::CloseStation { .. } => closing(self.close_station(record)),
            Call::Projection { position } => value(self.projection(position)),
            Call::Bound { position, time } => value(self.bound(position, time)),
            other => unreachable!("{} is asked of no state alone", other.name()),
        }
    }

    fn node(&mut self) -> (&Table, &mut Node, &mut Common) {
        (&self.table, self.node.as_mut().expect("a node"), &mut self.common)
    }

    fn start(&mut self, now: u64) -> Result<u64, No> {
        let (table, node, common) = self.node();
        Ok(node.start(table, common, now)? as u64)
    }

    fn finish(&mut self, now: u64) -> Result<u64, No> {
        let (_, node, common) = self.node();
        node.finish(common, now)?;
        Ok(0)
    }

    fn report(&mut self, r: u64) -> Result<Report, No> {
        let (table, node, common) = self.node();
        Ok(node.report(table, common, r)?)
    }

    fn close(&mut self, record: &Record) -> Result<(Reply, bool), No> {
        let (table, node, common) = self.node();
        let closed = node.close(table, common, record)?;
        Ok((closed.reply, closed.left_behind))
    }

    fn close_station(&mut self, record: &Record) -> Result<(Reply, bool), No> {
        Ok((close(&self.table, &mut self.common, record)?, false))
    }

    fn projection(&self, position: u64) -> Result<u64, No> {
        if position < self.common.base() || position > self.common.length() {
            return Err(no(NO_POSITION));
        }
        Ok(self.common.projection(&self.table, position))
    }

    fn bound(&self, position: u64, time: u64) -> Result<u64, No> {
        if time > reference::LATEST_TIME {
            return Err(Refusal::TimeTooLate.into());
        }
        if position <= self.common.base() || position > self.common.length() {
            return Err(no(NO_POSITION));
        }
        match self.common.breaking_task(&self.table, position, time) {
            Some(task) => Err(Refusal::BoundBroken { task }.into()),
            None => Ok(0),
        }
    }
}

fn of_length<T>(array: &[T], length: usize) -> Result<&[T], No> {
    if array.len() == length {
        Ok(array)
    } else {
        Err(no(WRONG_LENGTH))
    }
}

fn check_table(lent: &Lent) -> Result<u64, No> {
    table_of(of_length(&lent.table, TABLE_WORDS)?)?;
    Ok(0)
}

fn table_in(lent: &Lent) -> Result<Table, No> {
    table_of(of_length(&lent.table, TABLE_WORDS)?).map_err(|_| no(WRONG_TABLE))
}

/// The table and the common record, looked at in this order.
fn watched(lent: &Lent) -> Result<Held, No> {
    let table = table_in(lent)?;
    let common = common_of(&table, of_length(&lent.state, COMMON_WORDS)?).ok_or(no(WRONG_STATE))?;
    Ok(Held { table, node: None, common })
}

/// The table and the node, looked at in this order.
fn held(lent: &Lent) -> Result<Held, No> {
    let table = table_in(lent)?;
    let (node, common) = node_of(&table, of_length(&lent.state, NODE_WORDS)?).ok_or(no(WRONG_STATE))?;
    Ok(Held { table, node: Some(node), common })
}

fn fresh_common(lent: &mut Lent) -> Result<u64, No> {
    of_length(&lent.state, COMMON_WORDS)?;
    lent.state.copy_from_slice(&common_words(&Common::fresh()));
    Ok(0)
}

fn fresh_node(lent: &mut Lent, number: u64) -> Result<u64, No> {
    let table = table_in(lent)?;
    of_length(&lent.state, NODE_WORDS)?;
    let node = Node::fresh(&table, number)?;
    lent.state.copy_from_slice(&node_words(&node, &Common::fresh()));
    Ok(0)
}

/// A step of the lent node, whose words are written where it was accepted.
fn with_node<T>(lent: &mut Lent, step: impl FnOnce(&mut Held) -> Result<T, No>) -> Result<T, No> {
    let mut held = held(lent)?;
    let answer = step(&mut held)?;
    lent.state.copy_from_slice(&held.words());
    Ok(answer)
}

/// The lent record: releases first, then entries and their marks.
fn listed(lent: &Lent, r: u64) -> Result<Record, No> {
    if !lent.releases.len().is_multiple_of(RELEASE_WORDS) {
        return Err(no(WRONG_LENGTH));
    }
    if !lent.entries.len().is_multiple_of(ENTRY_WORDS) {
        return Err(no(WRONG_LENGTH));
    }
    if lent.entries.chunks_exact(ENTRY_WORDS).any(|entry| entry[0] > 1) {
        return Err(no(WRONG_MARK));
    }
    Ok(Record { r, releases: releases_of(&lent.releases), entries: entries_of(&lent.entries) })
}

fn close_node(lent: &mut Lent, r: u64) -> Result<(Reply, bool), No> {
    let mut held = held(lent)?;
    let answer = held.close(&listed(lent, r)?)?;
    lent.state.copy_from_slice(&held.words());
    Ok(answer)
}

fn close_station(lent: &mut Lent, r: u64) -> Result<(Reply, bool), No> {
    let mut held = watched(lent)?;
    let answer = held.close_station(&listed(lent, r)?)?;
    lent.state.copy_from_slice(&held.words());
    Ok(answer)
}

fn order(lent: &mut Lent) -> Result<u64, No> {
    let jobs = watched(lent)?.common.jobs;
    if lent.order.len() < jobs.len() {
        return Err(no(WRONG_LENGTH));
    }
    for (place, &task) in lent.order.iter_mut().zip(&jobs) {
        *place = task as u64;
    }
    Ok(jobs.len() as u64)
}

fn wrote(written: Result<usize, Refusal>) -> Result<u64, No> {
    Ok(written? as u64)
}

/// The task that 2 names is not told where a table is read.
fn table_from(lent: &mut Lent) -> Result<u64, No> {
    of_length(&lent.table, TABLE_WORDS)?;
    let mut bytes = Bytes::new(&lent.bytes[..]);
    let table = read_table(&mut bytes).map_err(|fault| no(No::from(fault).number))?;
    let used = bytes.taken();
    lent.table.copy_from_slice(&table_words(&table));
    Ok(used)
}

fn record_into(lent: &mut Lent) -> Result<(Record, u64), No> {
    let (room, places) = (lent.releases.len(), lent.entries.len());
    if !room.is_multiple_of(RELEASE_WORDS) || !places.is_multiple_of(ENTRY_WORDS) {
        return Err(no(WRONG_LENGTH));
    }
    let mut bytes = Bytes::new(&lent.bytes[..]);
    let record = read_record(&mut bytes, room / RELEASE_WORDS, places / ENTRY_WORDS)?;
    let used = bytes.taken();
    let (releases, entries) = (release_words(&record.releases), entry_words(&record.entries));
    lent.releases[..releases.len()].copy_from_slice(&releases);
    lent.entries[..entries.len()].copy_from_slice(&entries);
    Ok((record, used))
}

fn write_record(lent: &mut Lent, r: u64) -> Result<u64, No> {
    let record = listed(lent, r)?;
    wrote(written::write_record(&record, &mut lent.bytes))
}
