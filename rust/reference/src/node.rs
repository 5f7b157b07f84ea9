//! "What a node does": start, finish, report and close, each with its refusals
//! in the paper's order. The common record is lent to each step.

use crate::close;
use crate::common::Common;
use crate::judge::Reply;
use crate::refusal::Refusal;
use crate::sum;
use crate::table::Table;
use crate::written::{Record, Report};
use crate::LATEST_TIME;

/// An open round: its r, the report sent for it and the lock, progress + run.
#[derive(Clone, Copy, Debug, PartialEq, Eq)]
pub struct Round {
    pub r: u64,
    pub sent: Report,
    pub lock: u64,
}

/// Open, so that a node that was stored can be put together again.
#[derive(Clone, Debug, PartialEq, Eq)]
pub struct Node {
    pub number: usize,
    pub progress: u64,
    pub completion: u64,
    pub running: bool,
    pub latest: u64,
    pub round: Option<Round>,
}

/// What an accepted close tells: the judgement, and whether this node is now
/// left behind.
#[derive(Clone, Copy, Debug, PartialEq, Eq)]
pub struct Closed {
    pub reply: Reply,
    pub left_behind: bool,
}

impl Node {
    /// "A fresh one has zeros, no mark and no round." A node number >= m is 1.
    pub fn fresh(table: &Table, number: u64) -> Result<Node, Refusal> {
        if number >= table.nodes() as u64 {
            return Err(Refusal::NodeNumber);
        }
        Ok(Node {
            number: number as usize,
            progress: 0,
            completion: 0,
            running: false,
            latest: 0,
            round: None,
        })
    }

    pub fn progress(&self) -> u64 {
        self.progress
    }

    pub fn completion(&self) -> u64 {
        self.completion
    }

    pub fn running(&self) -> bool {
        self.running
    }

    pub fn latest(&self) -> u64 {
        self.latest
    }

    pub fn round(&self) -> Option<Round> {
        self.round
    }

    /// "If then progress < B, the node is left behind for good": no later step
    /// is accepted, so neither side of the comparison moves again.
    pub fn left_behind(&self, common: &Common) -> bool {
        self.progress < common.base()
    }

    /// Refusals 3 to 9. The reply names the task of the job at progress + 1.
    pub fn start(&mut self, table: &Table, common: &Common, now: u64) -> Result<usize, Refusal> {
        self.check_clock(common, now)?;
        if self.running {
            return Err(Refusal::JobRuns);
        }
        if self.progress == common.length() {
            return Err(Refusal::ProgressIsLength);
        }
        let position = sum(self.progress, 1);
        self.check_permission(table, common, position, now)?;
        self.latest = now;
        self.running = true;
        Ok(common.task_at(position))
    }

    /// "Permitted if the position is <= O, or <= the lock while a round is
    /// open, or, with no round open, if the bound holds now": 8 and 9.
    fn check_permission(
        &self,
        table: &Table,
        common: &Common,
        position: u64,
        now: u64,
    ) -> Result<(), Refusal> {
        if position <= common.offset() {
            return Ok(());
        }
        if let Some(round) = self.round {
            return if position <= round.lock { Ok(()) } else { Err(Refusal::BeyondOffsetAndLock) };
        }
        match common.breaking_task(table, position, now) {
            Some(task) => Err(Refusal::BoundBroken { task }),
            None => Ok(()),
        }
    }

    /// Refusals 3, 4, 5, 10. "Progress grows by one, the completion time is
    /// now, the mark falls."
    pub fn finish(&mut self, common: &Common, now: u64) -> Result<(), Refusal> {
        self.check_clock(common, now)?;
        if !self.running {
            return Err(Refusal::NothingRuns);
        }
        self.progress = sum(self.progress, 1);
        self.completion = now;
        self.running = false;
        self.latest = now;
        Ok(())
    }

    /// Refusals 3, 4, 5, 11. "The lock is progress + run."
    pub fn report(&mut self, table: &Table, common: &Common, r: u64) -> Result<Report, Refusal> {
        self.check_clock(common, r)?;
        if self.round.is_some() {
            return Err(Refusal::RoundIsOpen);
        }
        let run = u64::from(self.running || self.will_run(table, common, r));
        let sent = Report { progress: self.progress, completion: self.completion, run };
        self.latest = r;
        self.round = Some(Round { r, sent, lock: sum(self.progress, run) });
        Ok(sent)
    }

    /// "It is also 1 if position progress + 1 exists, is <= O or within the
    /// bound at r, and projection(progress) < r + timeout."
    fn will_run(&self, table: &Table, common: &Common, r: u64) -> bool {
        let position = sum(self.progress, 1);
        position <= common.length()
            && (position <= common.offset() || common.breaking_task(table, position, r).is_none())
            && common.projection(table, self.progress) < sum(r, table.timeout())
    }

    /// Refusals 5, 12, 13, then those of the common record. "Close applies the
    /// round record, lifts the lock and sets the latest time to the larger of
    /// itself and r + timeout."
    pub fn close(&mut self, table: &Table, common: &mut Common, record: &Record) -> Result<Closed, Refusal> {
        if self.left_behind(common) {
            return Err(Refusal::LeftBehind);
        }
        let round = self.round.ok_or(Refusal::NoRoundOpen)?;
        if record.r != round.r {
            return Err(Refusal::AnotherRound);
        }
        match record.entries.get(self.number).copied().flatten() {
            None => return Err(Refusal::OwnEntryAbsent),
            Some(own) if own != round.sent => return Err(Refusal::OwnEntryChanged),
            Some(_) => {}
        }
        let reply = close::close(table, common, record)?;
        self.round = None;
        self.latest = self.latest.max(sum(record.r, table.timeout()));
        Ok(Closed { reply, left_behind: self.left_behind(common) })
    }

    /// Refusals 3, 4 and 5, with which start, finish and report begin.
    fn check_clock(&self, common: &Common, time: u64) -> Result<(), Refusal> {
        if time > LATEST_TIME {
            return Err(Refusal::TimeTooLate);
        }
        if time < self.latest {
            return Err(Refusal::TimeBeforeLatest);
        }
        if self.left_behind(common) {
            return Err(Refusal::LeftBehind);
        }
        Ok(())
    }
}
