//! The common record, as a station holds it and as a node has one inside.

use crate::ffi;
use crate::layout::{
    COMMON_BASE, COMMON_BEGUN, COMMON_COUNT, COMMON_EARLIEST, COMMON_LAST, COMMON_OFFSET, COMMON_ORDER,
    COMMON_START, COMMON_WORDS, NODES, PLACES, TASKS,
};
use crate::record::Record;
use crate::refusal::{accepted, value_or_task, Refusal};
use crate::table::Table;

/// A common record: the jobs kept in order, and what is known of the round.
#[derive(Clone, Debug, PartialEq, Eq)]
pub struct Common {
    words: [u64; COMMON_WORDS],
}

/// What an accepted close tells.
#[derive(Clone, Copy, Debug, PartialEq, Eq)]
pub struct Closing {
    /// Each node's class, 0 to 5; places beyond the number of nodes hold 0.
    pub classes: [u8; NODES],
    /// The back-runner, if there is one.
    pub back_runner: Option<u8>,
    /// Whether class 0 or 5 is a majority. A notice only.
    pub majority: bool,
    /// Whether the node is now left behind for good; a station never is.
    pub left_behind: bool,
}

impl Closing {
    pub(crate) fn from_reply(reply: ffi::CloseReply) -> Result<Closing, Refusal> {
        accepted(reply.refusal)?;
        Ok(Closing {
            classes: reply.classes,
            back_runner: (reply.back < NODES as u64).then_some(reply.back as u8),
            majority: reply.majority == 1,
            left_behind: reply.left == 1,
        })
    }
}

impl Common {
    /// A common record at the start: all 0, and no round has been.
    pub fn fresh() -> Common {
        let mut words = [0; COMMON_WORDS];
        let reply = ffi::fresh_common(&mut words);
        assert_eq!(reply.refusal, 0, "only a wrong length refuses a fresh common record");
        Common { words }
    }

    /// A common record that was stored as words; 100 or 102 where it is none
    /// for this table. Asking for the projection of its base changes nothing,
    /// and the library looks at all words first. It looks at ranges: a damaged
    /// word that leaves them whole is not told, so store a check sum beside.
    pub fn from_words(table: &Table, words: &[u64]) -> Result<Common, Refusal> {
        let base = words.first().copied().unwrap_or(0);
        accepted(ffi::projection(table.words(), words, base).refusal)?;
        let words = words.try_into().expect("the library has looked at the length");
        Ok(Common { words })
    }

    /// A node's own common record, by its words, which the library wrote.
    pub(crate) fn of_node(words: &[u64]) -> Common {
        Common { words: words.try_into().expect("a node's last words are a common record") }
    }

    /// The words, to be stored.
    pub fn words(&self) -> &[u64; COMMON_WORDS] {
        &self.words
    }

    /// Applies a round record, as a station does; 3, 14, 15, 16 or 17, and 102
    /// where the common record is none for this table.
    pub fn close(&mut self, table: &Table, record: &Record) -> Result<Closing, Refusal> {
        Closing::from_reply(ffi::close_station(
            table.words(),
            &mut self.words,
            record.time,
            &record.release_words(),
            &record.entry_words(),
        ))
    }

    /// The projection of a position from B to L; 104 elsewhere.
    pub fn projection(&self, table: &Table, position: u64) -> Result<u64, Refusal> {
        value_or_task(ffi::projection(table.words(), &self.words, position))
    }

    /// Whether the bound holds for a position from B + 1 to L at a time: 9
    /// where it does not, with the lowest-numbered task that breaks it; 3; 104.
    pub fn bound(&self, table: &Table, position: u64, time: u64) -> Result<(), Refusal> {
        value_or_task(ffi::bound(table.words(), &self.words, position, time)).map(|_| ())
    }

    /// The tasks of the jobs kept into a list, and how many; 100 where the list
    /// is shorter. Places past them stay. `order` reads the same without a
    /// table.
    pub fn copy_order(&self, table: &Table, order: &mut [u64]) -> Result<usize, Refusal> {
        value_or_task(ffi::order(table.words(), &self.words, order)).map(|count| count as usize)
    }

    /// The tasks of the jobs kept, in order; the first stands at position B + 1.
    pub fn order(&self) -> &[u64] {
        &self.words[COMMON_ORDER..COMMON_ORDER + self.count()]
    }

    fn count(&self) -> usize {
        self.words[COMMON_COUNT].min(PLACES as u64) as usize
    }

    /// B, the back-runner's progress.
    pub fn base(&self) -> u64 {
        self.words[COMMON_BASE]
    }

    /// O, the insertion offset.
    pub fn offset(&self) -> u64 {
        self.words[COMMON_OFFSET]
    }

    /// L, the last position.
    pub fn length(&self) -> u64 {
        self.words[COMMON_BASE] + self.words[COMMON_COUNT]
    }

    /// W, the back-runner's next start time.
    pub fn next_start(&self) -> u64 {
        self.words[COMMON_START]
    }

    /// E of a task: its earliest next release. None for a number above 63.
    pub fn earliest(&self, task: usize) -> Option<u64> {
        self.words[COMMON_EARLIEST..COMMON_EARLIEST + TASKS].get(task).copied()
    }

    /// The last round's time, if a round has been.
    pub fn last_round(&self) -> Option<u64> {
        (self.words[COMMON_BEGUN] == 1).then_some(self.words[COMMON_LAST])
    }
}

impl Default for Common {
    fn default() -> Common {
        Common::fresh()
    }
}
