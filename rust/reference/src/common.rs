//! "The common record": the jobs still kept, base, offset, next start, earliest
//! releases and the last round's time; projection and bound.

use crate::sum;
use crate::table::Table;

/// Open, so that a record that was stored can be put together again.
#[derive(Clone, Debug, PartialEq, Eq)]
pub struct Common {
    /// The tasks of the jobs at positions B + 1 to L.
    pub jobs: Vec<usize>,
    /// B, the back-runner's progress.
    pub base: u64,
    /// W, the back-runner's next start time.
    pub next_start: u64,
    /// O, the insertion offset.
    pub offset: u64,
    /// E(i), the earliest next release of task i.
    pub earliest: [u64; Common::TASKS],
    /// The last round's time; none while "no round has been".
    pub last_round: Option<u64>,
}

/// A kept job together with what `projection` says of its position.
#[derive(Clone, Copy, Debug, PartialEq, Eq)]
pub struct Kept {
    pub position: u64,
    pub task: usize,
    pub projection: u64,
}

impl Common {
    /// "at most 256 are kept".
    pub const PLACES: usize = 256;
    /// "1 to 64 tasks".
    pub const TASKS: usize = 64;

    /// "At the start all are 0 and no round has been."
    pub fn fresh() -> Common {
        Common {
            jobs: Vec::with_capacity(Common::PLACES),
            base: 0,
            next_start: 0,
            offset: 0,
            earliest: [0; Common::TASKS],
            last_round: None,
        }
    }

    pub fn base(&self) -> u64 {
        self.base
    }

    pub fn next_start(&self) -> u64 {
        self.next_start
    }

    pub fn offset(&self) -> u64 {
        self.offset
    }

    /// L, the last position.
    pub fn length(&self) -> u64 {
        sum(self.base, self.jobs.len() as u64)
    }

    /// E(task), whatever the time.
    pub fn earliest(&self, task: usize) -> u64 {
        self.earliest[task]
    }

    pub fn last_round(&self) -> Option<u64> {
        self.last_round
    }

    /// The tasks of the jobs kept, in order; the first stands at B + 1.
    pub fn jobs(&self) -> &[usize] {
        &self.jobs
    }

    /// The task of the job at a position from B + 1 to L.
    pub fn task_at(&self, position: u64) -> usize {
        self.jobs[self.place(position)]
    }

    /// "Earliest release at t: the larger of E(i) and t."
    pub fn earliest_at(&self, task: usize, time: u64) -> u64 {
        self.earliest[task].max(time)
    }

    /// "Projection of position p >= B: W plus the C of every job from B + 1 to
    /// p. Of B it is W."
    pub fn projection(&self, table: &Table, position: u64) -> u64 {
        let kept = position.checked_sub(self.base).expect("a position from the base on");
        self.jobs[..kept as usize]
            .iter()
            .fold(self.next_start, |time, &task| sum(time, table.tasks()[task].execution))
    }

    /// Every job kept, in order, with its projection: one walk for a judgement
    /// that looks at many positions.
    pub fn kept<'a>(&'a self, table: &'a Table) -> impl Iterator<Item = Kept> + 'a {
        let mut position = self.base;
        let mut projection = self.next_start;
        self.jobs.iter().map(move |&task| {
            position = sum(position, 1);
            projection = sum(projection, table.tasks()[task].execution);
            Kept { position, task, projection }
        })
    }

    /// "Bound for position p at time t: for every task i of higher priority
    /// than the job there, projection(p) <= earliest release of i at t, plus
    /// S(i). Every such task counts, queued or not." The answer is the
    /// lowest-numbered task that breaks it, none where the bound holds.
    pub fn breaking_task(&self, table: &Table, position: u64, time: u64) -> Option<usize> {
        let projection = self.projection(table, position);
        self.breaking(table, Kept { position, task: self.task_at(position), projection }, time)
    }

    /// The bound for a job whose projection is at hand.
    pub fn breaking(&self, table: &Table, job: Kept, time: u64) -> Option<usize> {
        (0..job.task).find(|&higher| {
            let latest_start =
                u128::from(self.earliest_at(higher, time)) + u128::from(table.tasks()[higher].slack);
            u128::from(job.projection) > latest_start
        })
    }

    fn place(&self, position: u64) -> usize {
        let past_base = position.checked_sub(self.base).and_then(|kept| kept.checked_sub(1));
        past_base.expect("a position past the base") as usize
    }
}
