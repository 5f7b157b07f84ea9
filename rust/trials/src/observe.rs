//! What the generated sessions have reached: each refusal with its reasons,
//! each class with its reasons, and the edges on both sides. A trial that has
//! not reached everything on the list has shown too little, and fails.

mod record;
mod refused;

use std::collections::BTreeMap;
use std::fmt::Write;

use reference::session::read_table;
use reference::written::{read_number, read_record, Bytes, Fault};
use reference::{close, Common, Refusal, Table};

/// What a session has to reach besides its rounds.
pub const SESSIONS: &[&str] = &[
    "refusal 1: no node",
    "refusal 1: more than 15 nodes",
    "refusal 1: timeout 0",
    "refusal 1: no task",
    "refusal 1: more than 64 tasks",
    "refusal 2: value above 2^32 - 1",
    "refusal 2: C is 0",
    "refusal 2: C > D",
    "refusal 2: D > T",
    "refusal 2: S + C > D",
    "refusal 2: S below a lower task's C",
    "refusal 2: timeout above C",
    "refusal 15: release count above 64 while reading",
    "refusal 15: release count 65",
    "refusal 15: entry count above 15 while reading",
    "refusal 15: entry count 16",
    "refusal 18: in the table",
    "refusal 18: in a record",
    "refusal 19: ninth group goes on, in the table",
    "refusal 19: ninth group goes on, in a record",
    "refusal 19: last group 0, in the table",
    "refusal 19: last group 0, in a record",
    "refusal 20: mark above 1",
    "refusal 20: mark of several bytes",
    "table: 1 node",
    "table: 15 nodes",
    "table: 1 task",
    "table: 64 tasks",
    "table: a value of 2^32 - 1",
    "session: no record",
    "session: ends between records",
    "session: 300 rounds or more",
];

/// What the rounds have to reach. A report is never both over bound and late
/// (`alike/class-5-before-4.edit` says why), so no edge between these two stands
/// here; back-runner and majority are not printed by a session.
pub const ROUNDS: &[&str] = &[
    "refusal 3: r above 2^48 - 1",
    "refusal 3: r is 2^48",
    "refusal 14: r too soon",
    "refusal 14: by one",
    "refusal 15: entry count below m",
    "refusal 15: entry count above m",
    "refusal 15: unknown task",
    "refusal 15: the task number is the task count",
    "refusal 15: first delay not 0",
    "refusal 15: delay not below timeout",
    "refusal 15: delay at timeout",
    "refusal 15: delays fall",
    "refusal 16: too soon after an earlier round",
    "refusal 16: by one",
    "refusal 16: twice in one list",
    "refusal 17: order full",
    "refusal 17: by one",
    "refusal 17: though the base moves",
    "class 0",
    "class 0: completion at r",
    "class 0: completion at the projection",
    "class 0: progress + run at L",
    "class 0: next projection at r",
    "class 0: bound met exactly",
    "class 0: 64 positions or more past O",
    "class 1",
    "class 2: run above 1",
    "class 2: progress + run above L",
    "class 2: progress + run is L + 1",
    "class 2: completion after r",
    "class 2: completion at r + 1",
    "class 2: progress below B too",
    "class 2: a value of 2^62 or more",
    "class 3",
    "class 3: by one",
    "class 4",
    "class 4: by one microsecond",
    "class 4: only by tasks that are queued",
    "class 4: only by a task that is not queued",
    "class 4: by run alone",
    "class 4: first broken at O + 1",
    "class 4: first broken on the way",
    "class 4: broken at the last position alone",
    "class 4: 64 positions or more past O",
    "class 5: completion after the projection",
    "class 5: completion by one",
    "class 5: next projection before r",
    "class 5: next projection by one",
    "offset: moved by class 5 alone",
    "offset: class 4 left out",
    "offset: kept though all fronts are lower",
    "back-runner: none",
    "back-runner: class 5 further back left out",
    "back-runner: equal progress, other starts",
    "back-runner: several with the largest start",
    "back-runner: nothing left to run",
    "back-runner: base moves on",
    "next start: kept",
    "next start: moved",
    "round: at last + timeout",
    "round: first at 0",
    "round: first after 0",
    "round: nothing in it",
    "round: at 2^48 - 1",
    "round: about 2^32",
    "release: at E",
    "release: at E by its delay",
    "release: delay at timeout - 1",
    "release: at O + 1, ahead of others",
    "release: between others",
    "release: last",
    "release: would stand before the new offset by the old one",
    "order: 256 kept",
    "order: 256 kept by the new base",
];

/// How often each thing on the list was reached.
pub struct Reached {
    wanted: Vec<&'static str>,
    counts: BTreeMap<&'static str, u64>,
}

/// What sessions have to reach.
impl Default for Reached {
    fn default() -> Reached {
        Reached::wanting(&[SESSIONS, ROUNDS])
    }
}

impl Reached {
    pub fn wanting(lists: &[&[&'static str]]) -> Reached {
        let wanted = lists.concat();
        let counts = wanted.iter().map(|&what| (what, 0)).collect();
        Reached { wanted, counts }
    }

    pub(crate) fn note(&mut self, what: &str) {
        *self.counts.get_mut(what).unwrap_or_else(|| panic!("{what:?} is not on the list")) += 1;
    }

    pub(crate) fn note_if(&mut self, holds: bool, what: &str) {
        if holds {
            self.note(what);
        }
    }

    pub fn missing(&self) -> Vec<&'static str> {
        self.wanted.iter().copied().filter(|what| self.counts[what] == 0).collect()
    }

    /// The list with its counts, in the list's order.
    pub fn summary(&self) -> String {
        let mut lines = String::new();
        for what in &self.wanted {
            writeln!(lines, "{:>9}  {what}", self.counts[what]).expect("a string takes every line");
        }
        lines
    }

    /// Walks a session with the reference and notes what it reaches.
    pub fn observe(&mut self, session: &[u8]) {
        let mut bytes = Bytes::new(session);
        match read_table(&mut bytes) {
            Err(fault) => self.refused_table(session, refusal(fault)),
            Ok(table) => {
                self.table(&table);
                self.rounds(&mut bytes, &table);
            }
        }
    }

    fn table(&mut self, table: &Table) {
        self.note_if(table.nodes() == 1, "table: 1 node");
        self.note_if(table.nodes() == 15, "table: 15 nodes");
        self.note_if(table.tasks().len() == 1, "table: 1 task");
        self.note_if(table.tasks().len() == 64, "table: 64 tasks");
        let widest = table.tasks().iter().map(|task| task.distance).max();
        self.note_if(widest == Some(Table::VALUE), "table: a value of 2^32 - 1");
    }

    fn rounds(&mut self, bytes: &mut Bytes<&[u8]>, table: &Table) {
        let mut common = Common::fresh();
        let mut rounds = 0;
        while !bytes.source().is_empty() {
            let start = *bytes.source();
            let record = match read_record(bytes, Common::TASKS, Table::NODES) {
                Ok(record) => record,
                Err(fault) => return self.refused_bytes(start, bytes, refusal(fault)),
            };
            let before = common.clone();
            match close(table, &mut common, &record) {
                Ok(reply) => self.accepted(table, &before, &record, &reply, &common),
                Err(refusal) => return self.refused_round(table, &before, &record, refusal),
            }
            rounds += 1;
        }
        self.note(if rounds == 0 { "session: no record" } else { "session: ends between records" });
        self.note_if(rounds >= 300, "session: 300 rounds or more");
    }

    /// The first three numbers, as far as they can be read.
    fn refused_table(&mut self, session: &[u8], refusal: Refusal) {
        let mut bytes = Bytes::new(session);
        let numbers = [(); 3].map(|()| read_number(&mut bytes).unwrap_or(0));
        self.refused_numbers(numbers, refusal);
    }
}

/// The refusal of a reading from memory, which cannot fail otherwise.
fn refusal(fault: Fault) -> Refusal {
    match fault {
        Fault::Refused(refusal) => refusal,
        Fault::Source(error) => unreachable!("memory can always be read: {error}"),
    }
}
