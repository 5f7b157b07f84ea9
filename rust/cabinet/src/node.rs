//! A node: start, finish, report, close.

use crate::common::{Closing, Common};
use crate::ffi;
use crate::layout::{
    NODE_COMMON, NODE_COMPLETED, NODE_LATEST, NODE_NUMBER, NODE_OPEN, NODE_PROGRESS, NODE_RUNNING, NODE_SENT,
    NODE_TIME, NODE_WORDS,
};
use crate::record::{Record, Report};
use crate::refusal::{accepted, value_or_task, Refusal};
use crate::table::Table;

/// The first time that every step refuses: 3, "time above 2^48 - 1".
const TOO_LATE: u64 = 1 << 48;

/// A controller's own state, with its common record inside.
#[derive(Clone, Debug, PartialEq, Eq)]
pub struct Node {
    words: [u64; NODE_WORDS],
}

/// A round that a node has reported for and not yet closed.
#[derive(Clone, Copy, Debug, PartialEq, Eq)]
pub struct Open {
    /// The round's time.
    pub time: u64,
    /// What the node sent for it. The lock is its progress + run.
    pub sent: Report,
}

impl Node {
    /// The node of this number at the start; 1 where the table has no such node.
    pub fn fresh(table: &Table, number: u64) -> Result<Node, Refusal> {
        let mut words = [0; NODE_WORDS];
        accepted(ffi::fresh_node(table.words(), &mut words, number).refusal)?;
        Ok(Node { words })
    }

    /// A node that was stored as words; 100 or 102 where it is none for this
    /// table. A start at 2^48 is refused 3 by every node, and the library looks
    /// at all words before: so 3, and only 3, says that they are a node. As with
    /// a common record, a damaged word within its range is not told.
    pub fn from_words(table: &Table, words: &[u64]) -> Result<Node, Refusal> {
        let mut copy = words.to_vec();
        match ffi::start(table.words(), &mut copy, TOO_LATE).refusal {
            3 => {}
            0 => unreachable!("a start at 2^48 was accepted"),
            number => accepted(number)?,
        }
        let words = words.try_into().expect("the library has looked at the length");
        Ok(Node { words })
    }

    /// The words, to be stored.
    pub fn words(&self) -> &[u64; NODE_WORDS] {
        &self.words
    }

    /// Starts the job at progress + 1, and names its task; 3 to 9.
    pub fn start(&mut self, table: &Table, now: u64) -> Result<u64, Refusal> {
        value_or_task(ffi::start(table.words(), &mut self.words, now))
    }

    /// Finishes the job that runs; 3, 4, 5 or 10.
    pub fn finish(&mut self, table: &Table, now: u64) -> Result<(), Refusal> {
        accepted(ffi::finish(table.words(), &mut self.words, now).refusal)
    }

    /// Opens the round at r, and gives the report to send for it; 3, 4, 5 or 11.
    pub fn report(&mut self, table: &Table, r: u64) -> Result<Report, Refusal> {
        let reply = ffi::report(table.words(), &mut self.words, r);
        accepted(reply.refusal)?;
        Ok(Report { progress: reply.progress, completed: reply.completed, run: reply.run })
    }

    /// Applies the record of the open round; 5, 12, 13, 3, 14, 15, 16 or 17.
    /// After a refusal the round stays open, and another record may follow.
    pub fn close(&mut self, table: &Table, record: &Record) -> Result<Closing, Refusal> {
        Closing::from_reply(ffi::close(
            table.words(),
            &mut self.words,
            record.time,
            &record.release_words(),
            &record.entry_words(),
        ))
    }

    /// The node's own common record, as a copy.
    pub fn common(&self) -> Common {
        Common::of_node(&self.words[NODE_COMMON..])
    }

    /// The node's number.
    pub fn number(&self) -> u64 {
        self.words[NODE_NUMBER]
    }

    /// Finished jobs.
    pub fn progress(&self) -> u64 {
        self.words[NODE_PROGRESS]
    }

    /// Completion time of the last one, 0 at first.
    pub fn completed(&self) -> u64 {
        self.words[NODE_COMPLETED]
    }

    /// Whether a job runs.
    pub fn running(&self) -> bool {
        self.words[NODE_RUNNING] == 1
    }

    /// The latest time; no step may come before it.
    pub fn latest(&self) -> u64 {
        self.words[NODE_LATEST]
    }

    /// The open round, if there is one.
    pub fn open_round(&self) -> Option<Open> {
        let [progress, completed, run] = [0, 1, 2].map(|place| self.words[NODE_SENT + place]);
        let sent = Report { progress, completed, run };
        (self.words[NODE_OPEN] == 1).then_some(Open { time: self.words[NODE_TIME], sent })
    }

    /// Whether the node is left behind: its progress is below its base.
    pub fn left_behind(&self) -> bool {
        self.progress() < self.common().base()
    }
}
