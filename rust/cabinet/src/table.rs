//! The task table.

use crate::ffi;
use crate::layout::{
    TABLE_C, TABLE_D, TABLE_NODES, TABLE_S, TABLE_T, TABLE_TASKS, TABLE_TIMEOUT, TABLE_WORDS, TASKS,
};
use crate::refusal::{accepted, value_or_task, Refusal};

/// One task's numbers, by document 01's letters.
#[derive(Clone, Copy, Debug, Default, PartialEq, Eq)]
pub struct Task {
    /// Longest execution.
    pub c: u64,
    /// Least distance between releases.
    pub t: u64,
    /// Deadline.
    pub d: u64,
    /// Slack.
    pub s: u64,
}

/// A task table that has passed the library's check.
#[derive(Clone, Debug, PartialEq, Eq)]
pub struct Table {
    words: [u64; TABLE_WORDS],
}

impl Table {
    /// The table with these tasks, from the highest priority down; 1 or 2
    /// where it may not be used. More tasks than a table has places are 1.
    pub fn checked(nodes: u64, timeout: u64, tasks: &[Task]) -> Result<Table, Refusal> {
        let mut words = [0; TABLE_WORDS];
        words[TABLE_NODES] = nodes;
        words[TABLE_TIMEOUT] = timeout;
        words[TABLE_TASKS] = tasks.len() as u64;
        for (place, task) in tasks.iter().take(TASKS).enumerate() {
            words[TABLE_C + place] = task.c;
            words[TABLE_T + place] = task.t;
            words[TABLE_D + place] = task.d;
            words[TABLE_S + place] = task.s;
        }
        Table::from_words(&words)
    }

    /// A table that was stored as words; 100, 1 or 2 where it may not be used.
    /// Words past its tasks mean nothing, and are not kept.
    pub fn from_words(words: &[u64]) -> Result<Table, Refusal> {
        value_or_task(ffi::check_table(words))?;
        let mut table = Table { words: [0; TABLE_WORDS] };
        table.words[..TABLE_C].copy_from_slice(&words[..TABLE_C]);
        let count = table.task_count();
        for from in [TABLE_C, TABLE_T, TABLE_D, TABLE_S] {
            table.words[from..from + count].copy_from_slice(&words[from..from + count]);
        }
        Ok(table)
    }

    /// The table at the first byte, as a session begins with, and the bytes
    /// used; 18, 19, 1 or 2, and 2 names no task here.
    pub fn read(bytes: &[u8]) -> Result<(Table, usize), Refusal> {
        let mut words = [0; TABLE_WORDS];
        let reply = ffi::read_table(bytes, &mut words);
        accepted(reply.refusal)?;
        Ok((Table { words }, reply.value as usize))
    }

    /// The words, to be stored.
    pub fn words(&self) -> &[u64; TABLE_WORDS] {
        &self.words
    }

    /// m, the number of nodes.
    pub fn nodes(&self) -> usize {
        self.words[TABLE_NODES] as usize
    }

    /// The timeout.
    pub fn timeout(&self) -> u64 {
        self.words[TABLE_TIMEOUT]
    }

    /// How many tasks there are.
    pub fn task_count(&self) -> usize {
        self.words[TABLE_TASKS] as usize
    }

    /// The tasks, from the highest priority down.
    pub fn tasks(&self) -> Vec<Task> {
        let task = |place| Task {
            c: self.words[TABLE_C + place],
            t: self.words[TABLE_T + place],
            d: self.words[TABLE_D + place],
            s: self.words[TABLE_S + place],
        };
        (0..self.task_count()).map(task).collect()
    }
}
