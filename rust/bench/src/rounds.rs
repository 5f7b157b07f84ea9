//! The rounds that are timed: two sessions, and one close on a full order. Every
//! record is closed by the reference while it is made, so none is refused.

use reference::judge::{class, judge};
use reference::written::{push_number, record_bytes};
use reference::{close, Common, Record, Release, Report, Table, Task};

/// A session being made: its bytes so far, and the record that they give.
pub(crate) struct Making {
    pub(crate) table: Table,
    pub(crate) common: Common,
    bytes: Vec<u8>,
}

impl Making {
    pub(crate) fn new(nodes: u64, timeout: u64, tasks: &[Task]) -> Making {
        let mut numbers = vec![nodes, timeout, tasks.len() as u64];
        for task in tasks {
            numbers.extend([task.execution, task.distance, task.deadline, task.slack]);
        }
        let mut bytes = Vec::new();
        for number in numbers {
            push_number(number, &mut bytes).expect("a number of the table");
        }
        let table = Table::check(nodes, timeout, tasks).expect("a table that keeps the rules");
        Making { table, common: Common::fresh(), bytes }
    }

    pub(crate) fn close(&mut self, record: &Record) {
        close(&self.table, &mut self.common, record)
            .unwrap_or_else(|refusal| panic!("{record:?} was refused: {refusal:?}"));
        self.bytes.extend(record_bytes(record).expect("a record that can be written"));
    }

    /// What was made, and the record that comes next.
    pub(crate) fn ready(self, record: Record) -> Ready {
        Ready { table: self.table, common: self.common, record }
    }

    /// A report at a position, as early as the order lets it be complete.
    pub(crate) fn report(&self, r: u64, progress: u64, run: u64) -> Report {
        Report { progress, completion: self.common.projection(&self.table, progress).min(r), run }
    }

    /// The report of a node that has come as far as it may without being late
    /// or over the bound, `short` positions less.
    fn on_time(&self, r: u64, short: u64) -> Option<Report> {
        let (base, length) = (self.common.base(), self.common.length());
        (base..=length)
            .rev()
            .map(|progress| self.report(r, progress, 0))
            .filter(|report| class(&self.table, &self.common, r, Some(*report)) == 0)
            .nth(short as usize)
    }

    /// Releases of at most `count` tasks that are due, those with the fewest
    /// jobs in the order first, so that the order stays mixed.
    fn due(&self, r: u64, count: usize) -> Vec<Release> {
        let queued = |task: &usize| self.common.jobs().iter().filter(|&job| job == task).count();
        let mut due: Vec<usize> = (0..self.table.tasks().len()).collect();
        due.retain(|&task| self.common.earliest(task) <= r);
        due.sort_by_cached_key(queued);
        due.truncate(count);
        due.into_iter().map(|task| Release { task: task as u64, delay: 0 }).collect()
    }
}

/// The worked canal going on and on: a round every 50 microseconds, each task
/// as often as it may come, the base moving with the nodes.
pub fn canal(rounds: u64) -> Vec<u8> {
    let task = |execution, distance, deadline, slack| Task { execution, distance, deadline, slack };
    let tasks = [task(10, 100, 100, 40), task(20, 200, 200, 50), task(30, 400, 400, 40)];
    let mut making = Making::new(3, 2, &tasks);
    for round in 0..rounds {
        let r = 50 * round;
        let releases = making.due(r, tasks.len());
        let entries = (0..3).map(|node| making.on_time(r, (node + round) % 2)).collect();
        making.close(&Record { r, releases, entries });
    }
    making.bytes
}

/// Rounds on a full order: 64 tasks, 256 jobs kept after each round, 15
/// reports, one of them far ahead and over the bound.
pub fn full(rounds: u64) -> Vec<u8> {
    let mut making = Making::crowd();
    for round in 0..rounds {
        let record = making.crowded_record(round);
        making.close(&record);
        assert!(round < 3 || making.common.jobs().len() == Common::PLACES, "the order is full");
    }
    making.bytes
}

/// A table, a common record, and the record that comes next.
pub struct Ready {
    pub table: Table,
    pub common: Common,
    pub record: Record,
}

/// The full order after so many rounds.
pub fn full_state(rounds: u64) -> Ready {
    let mut making = Making::crowd();
    for round in 0..rounds {
        let record = making.crowded_record(round);
        making.close(&record);
    }
    let record = making.crowded_record(rounds);
    making.ready(record)
}

impl Making {
    /// 15 nodes and 64 tasks that come back soon.
    fn crowd() -> Making {
        let task = Task { execution: 1000, distance: 5000, deadline: 5000, slack: 4000 };
        Making::new(15, 100, &[task; 64])
    }

    /// The record of a round, which fills the order again.
    fn crowded_record(&self, round: u64) -> Record {
        let r = 5000 * round.min(4) + 1000 * round.saturating_sub(4);
        let mut record = Record { r, releases: Vec::new(), entries: vec![None; 15] };
        if round >= 4 {
            record.entries = (0..15).map(|node| Some(self.crowded(r, node))).collect();
        }
        let base = judge(&self.table, &self.common, &record).base;
        let room = Common::PLACES - (self.common.length() - base) as usize;
        record.releases = self.due(r, room);
        record
    }

    /// Fourteen nodes a few jobs past the base, and one that claims them all.
    fn crowded(&self, r: u64, node: u64) -> Report {
        match node {
            14 => self.report(r, self.common.length(), 0),
            _ => self.report(r, self.common.base() + 1 + node % 3, 1),
        }
    }
}

#[cfg(test)]
mod tests {
    use super::*;
    use reference::session::run_bytes;

    /// The lines that a session prints, none of them a refusal.
    fn lines(session: &[u8]) -> Vec<String> {
        let printed = String::from_utf8(run_bytes(session)).expect("printed lines");
        assert!(!printed.contains("refused"));
        printed.lines().map(str::to_string).collect()
    }

    #[test]
    fn the_canal_goes_on_with_its_base_moving() {
        let lines = lines(&canal(300));
        assert_eq!(lines.len(), 301);
        // 150 jobs of task 0, 75 of task 1 and 38 of task 2 by 14950.
        assert_eq!(lines[299], "round 14950 ipo 263 base 262 length 263 toc 14902 nodes 000");
    }

    #[test]
    fn the_full_order_keeps_256_jobs_of_nearly_all_tasks() {
        let lines = lines(&full(300));
        assert_eq!(lines.len(), 301);
        let tasks: Vec<&str> = lines[300].split([' ', ':']).skip(2).step_by(2).collect();
        assert_eq!(tasks.len(), 256);
        let there = (0..64).filter(|task: &u64| tasks.contains(&task.to_string().as_str())).count();
        assert!(there >= 60, "{there} of 64 tasks");
        assert!(lines[299].ends_with(" nodes 000000000000004"), "{}", lines[299]);
    }
}
