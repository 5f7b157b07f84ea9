//! The rounds of `bench-growth`: closes that differ in the tasks of the table, the
//! jobs kept, how many of them stand past O, and how many nodes report from where.
//! Every state is one that the reference's closes gave.

use reference::{Common, Record, Release, Report, Table, Task};

use crate::rounds::{Making, Ready};

/// How many of the fifteen nodes report; the others' entries are missing.
pub const REPORTS: [usize; 3] = [1, 5, 15];

/// T of every task but task 0, and the time from one release round to the next.
const DISTANCE: u64 = 1_000_000;
/// C of every task but task 0, and the timeout.
const SHORT: u64 = 100;
/// How far the job of task 0, which is long, lasts past the round that is timed.
const OVERLAP: u64 = DISTANCE / 4;
/// Where the slack ends on the way: the last position that keeps the bound.
const HOLDS: u64 = 200;

/// Where the reports stand.
#[derive(Clone, Copy, Debug, PartialEq, Eq)]
pub enum Stand {
    /// A few positions past B, all good.
    Near,
    /// At the last positions, all good.
    Far,
    /// Over the whole order, under a table whose slack ends on the way: good as far
    /// as position 200, over the bound past it.
    Spread,
}

impl Stand {
    pub fn name(self) -> &'static str {
        match self {
            Stand::Near => "near",
            Stand::Far => "far",
            Stand::Spread => "spread, some over the bound",
        }
    }
}

/// What a close is timed on.
#[derive(Clone, Copy, Debug)]
pub struct Load {
    pub tasks: usize,
    /// Jobs kept, and how many of them stand past O.
    pub jobs: usize,
    pub past: usize,
    pub stand: Stand,
}

/// Full orders with more and more positions past O, short ones all past O, and
/// full ones in which the bound is broken on the way.
pub fn loads() -> Vec<Load> {
    let mut loads = Vec::new();
    for tasks in [8, 64] {
        let load = |jobs, past, stand| Load { tasks, jobs, past, stand };
        loads.extend([16, 64, 256].map(|past| load(256, past, Stand::Near)));
        loads.extend([16, 64].map(|jobs| load(jobs, jobs, Stand::Far)));
        loads.extend([16, 64, 256].map(|past| load(256, past, Stand::Far)));
        loads.push(load(256, 256, Stand::Spread));
    }
    loads
}

impl Load {
    /// The state, and the round of so many reports that comes next.
    pub fn ready(&self, reports: usize) -> Ready {
        let mut making = Making::new(Table::NODES as u64, SHORT, &self.task_list());
        for round in 0..self.release_rounds() {
            let releases = self.releases(round, making.common.jobs().len());
            making.close(&Record { r: DISTANCE * round, releases, entries: vec![None; Table::NODES] });
        }
        let record = self.lifting(&making);
        making.close(&record);
        let record = self.timed(&making, reports);
        making.ready(record)
    }

    /// The classes that the reports have by where they stand.
    pub fn classes(&self, record: &Record) -> Vec<u8> {
        let class = |entry: &Option<Report>| match entry {
            None => 1,
            Some(sent) if self.stand == Stand::Spread && sent.progress + sent.run > HOLDS => 4,
            Some(_) => 0,
        };
        record.entries.iter().map(class).collect()
    }

    /// A task comes once a release round, and task 0 in the first alone.
    fn release_rounds(&self) -> u64 {
        (self.jobs - 1).div_ceil(self.tasks - 1) as u64
    }

    /// r of the round that is timed: two rounds past the last releases.
    fn r(&self) -> u64 {
        DISTANCE * (self.release_rounds() - 1) + 2 * SHORT
    }

    /// Task 0 is long: its one job, the first of the order, lasts past the round
    /// that is timed, and so no node that has come no further is late, also where
    /// O lies far ahead. All the others are short.
    fn task_list(&self) -> Vec<Task> {
        let slack = match self.stand {
            Stand::Spread => OVERLAP + SHORT * (HOLDS - 1),
            Stand::Near | Stand::Far => OVERLAP + SHORT * Common::PLACES as u64,
        };
        let long = self.r() + OVERLAP;
        let mut tasks =
            vec![Task { execution: SHORT, distance: DISTANCE, deadline: DISTANCE, slack }; self.tasks];
        tasks[0] = Task { execution: long, distance: long + slack, deadline: long + slack, slack };
        tasks
    }

    /// As many releases as the order still lacks, of the lowest priorities where
    /// not all are needed: their jobs have the most tasks above them.
    fn releases(&self, round: u64, kept: usize) -> Vec<Release> {
        let long = usize::from(round == 0);
        let short = (self.jobs - kept - long).min(self.tasks - 1);
        let released = (0..long).chain(self.tasks - short..self.tasks);
        released.map(|task| Release { task: task as u64, delay: 0 }).collect()
    }

    /// A node that has done nothing keeps B, and another lifts O.
    fn lifting(&self, making: &Making) -> Record {
        let r = self.r() - SHORT;
        let offset = making.common.length() - self.past as u64;
        let mut entries = vec![None; Table::NODES];
        entries[0] = Some(making.report(r, making.common.base(), 0));
        entries[1] = Some(making.report(r, offset, 0));
        Record { r, releases: Vec::new(), entries }
    }

    /// The round that is timed: reports of nodes that run a job.
    fn timed(&self, making: &Making, reports: usize) -> Record {
        let (r, base, length) = (self.r(), making.common.base(), making.common.length());
        let progress = |node: u64| match self.stand {
            Stand::Near => base + 1 + node % 3,
            Stand::Far => length - 1 - node % 6,
            Stand::Spread => base + 240 * (node + 1) / reports as u64,
        };
        let entry = |node: usize| (node < reports).then(|| making.report(r, progress(node as u64), 1));
        Record { r, releases: Vec::new(), entries: (0..Table::NODES).map(entry).collect() }
    }
}

#[cfg(test)]
mod tests {
    use super::*;
    use reference::close;

    #[test]
    fn the_orders_have_the_jobs_and_the_offset_that_the_load_names() {
        for load in loads() {
            let Ready { table, common, .. } = load.ready(15);
            assert_eq!(table.tasks().len(), load.tasks, "{load:?}");
            assert_eq!(common.jobs().len(), load.jobs, "{load:?}");
            assert_eq!(common.length() - common.offset(), load.past as u64, "{load:?}");
            let there = (0..load.tasks).filter(|task| common.jobs().contains(task)).count();
            assert_eq!(there, load.tasks.min(load.jobs), "{load:?}");
        }
    }

    #[test]
    fn the_reports_are_good_but_where_the_slack_ends_on_the_way() {
        for load in loads() {
            for reports in REPORTS {
                let Ready { table, mut common, record } = load.ready(reports);
                let reply = close(&table, &mut common, &record).expect("an accepted round");
                assert_eq!(reply.classes[..], load.classes(&record), "{load:?}");
                let count = |wanted: u8| reply.classes.iter().filter(|&&class| class == wanted).count();
                let over = if load.stand == Stand::Spread { reports.div_ceil(5) } else { 0 };
                assert_eq!((count(4), count(0)), (over, reports - over), "{load:?}");
            }
        }
    }

    #[test]
    fn the_far_reports_are_the_last_positions_and_the_near_ones_the_first() {
        for load in loads() {
            let Ready { common, record, .. } = load.ready(15);
            let fronts: Vec<u64> =
                record.entries.iter().flatten().map(|sent| sent.progress + sent.run).collect();
            match load.stand {
                Stand::Near => assert!(fronts.iter().all(|&front| front <= common.base() + 4), "{load:?}"),
                Stand::Far => assert!(fronts.iter().all(|&front| front + 6 > common.length()), "{load:?}"),
                Stand::Spread => assert_eq!((fronts[0], fronts[14]), (17, 241)),
            }
        }
    }
}
