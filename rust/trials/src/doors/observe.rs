//! Notes on the calls of a script: which edge of which rule each stood at.

use reference::{close, Common, Node, Record, Refusal, Table, LATEST_TIME};

use crate::doors::model::Held;
use crate::doors::scripts::Step;
use crate::doors::{Call, Told};
use crate::observe::Reached;

impl Reached {
    /// A call of a script: the state before it, what was told, the state after.
    pub(crate) fn step(&mut self, before: &Held, step: &Step, told: &Told, after: &Held) {
        let refusal = told.refusal();
        match step.call {
            Call::Start { now } => {
                self.clock(before, "start", now, refusal);
                self.start(before, now, refusal);
            }
            Call::Finish { now } => {
                self.clock(before, "finish", now, refusal);
                self.finish(before, now, refusal);
            }
            Call::Report { r } => {
                self.clock(before, "report", r, refusal);
                self.report_sent(before, r, told);
            }
            Call::Close { .. } => {
                self.close_node(before, &step.record, told, after);
                self.wide(&step.record);
            }
            Call::CloseStation { .. } => {
                self.round(before, &step.record, after);
                self.wide(&step.record);
            }
            other => unreachable!("{} is no call of a script", other.name()),
        }
    }

    fn clock(&mut self, before: &Held, name: &str, time: u64, refusal: u64) {
        let latest = node(before).latest();
        self.note_if(refusal == 0 && time == latest, &format!("{name}: at the latest time"));
        self.note_if(refusal == 4 && time + 1 == latest, &format!("{name}: one before the latest time"));
        self.note_if(time == LATEST_TIME && refusal != 3, &format!("{name}: at 2^48 - 1"));
        self.note_if(time == LATEST_TIME + 1, &format!("{name}: at 2^48"));
        self.note_if(time == u64::MAX, &format!("{name}: at 2^64 - 1"));
    }

    fn start(&mut self, before: &Held, now: u64, refusal: u64) {
        let (node, common) = (node(before), &before.common);
        let position = node.progress() + 1;
        if ![0, 8, 9].contains(&refusal) {
            return;
        }
        let edge = Edge::of(&before.table, common, position, now);
        let fixed = position <= common.offset();
        self.note_if(refusal == 0 && position == common.offset(), "start: at O");
        match node.round() {
            Some(round) => {
                let locked = refusal == 0 && !fixed && position == round.lock;
                self.note_if(locked, "start: at the lock, past O");
                self.note_if(refusal == 8 && edge.by == 0, "start: beyond the lock though the bound holds");
                self.note_if(refusal == 8 && position == round.lock + 1, "start: one beyond the lock");
            }
            None => {
                self.note_if(refusal == 0 && !fixed, "start: past O by the bound");
                self.note_if(refusal == 0 && !fixed && edge.exact, "start: past O, bound met exactly");
                self.note_if(refusal == 9 && edge.by == 1, "start: bound broken by one");
                self.note_if(
                    refusal == 9 && edge.queued,
                    "start: bound broken only by tasks that are queued",
                );
                let free = refusal == 9 && edge.not_queued;
                self.note_if(free, "start: bound broken only by tasks that are not queued");
                self.note_if(refusal == 9 && edge.first > 0, "start: 9 names another task than 0");
            }
        }
    }

    fn finish(&mut self, before: &Held, now: u64, refusal: u64) {
        if refusal == 0 {
            let projection = before.common.projection(&before.table, node(before).progress() + 1);
            self.note_if(now == projection, "finish: at the projection");
            self.note_if(now == projection + 1, "finish: one after the projection");
        }
    }

    fn report_sent(&mut self, before: &Held, r: u64, told: &Told) {
        let &Told::Report { refusal: 0, run, .. } = told else { return };
        let (node, common, table) = (node(before), &before.common, &before.table);
        let position = node.progress() + 1;
        if node.running() {
            return self.note("report: run 1, a job runs");
        }
        if position > common.length() {
            return self.note("report: run 0, no job left");
        }
        let edge = Edge::of(table, common, position, r);
        let soon = common.projection(table, node.progress()).abs_diff(r + table.timeout());
        let fixed = position <= common.offset();
        self.note_if(run == 1 && !fixed, "report: run 1, by the bound");
        self.note_if(run == 1 && !fixed && edge.exact, "report: run 1, bound met exactly");
        self.note_if(run == 1 && soon == 1, "report: run 1, projection one before r + timeout");
        let permitted = fixed || edge.by == 0;
        self.note_if(run == 0 && !permitted && edge.by == 1, "report: run 0, bound broken by one");
        self.note_if(run == 0 && permitted && soon == 0, "report: run 0, projection at r + timeout");
    }

    fn close_node(&mut self, before: &Held, record: &Record, told: &Told, after: &Held) {
        let node = node(before);
        let round = node.round();
        let own = record.entries.get(node.number);
        match (told.refusal(), round, own) {
            (12, None, _) => self.note("close: no round open"),
            (12, Some(round), _) => {
                self.note_if(record.r.abs_diff(round.r) == 1, "close: another r, by one");
            }
            (13, _, None) => self.note("close: the list ends before the own entry"),
            (13, _, Some(None)) => self.note("close: the own entry is missing"),
            (13, Some(round), Some(Some(own))) => {
                let off = [
                    ("close: own progress by one", own.progress.abs_diff(round.sent.progress)),
                    ("close: own completion time by one", own.completion.abs_diff(round.sent.completion)),
                    ("close: own run by one", own.run.abs_diff(round.sent.run)),
                ];
                let total: u128 = off.iter().map(|&(_, by)| u128::from(by)).sum();
                for (what, by) in off {
                    self.note_if(by == 1 && total == 1, what);
                }
            }
            (5, ..) => {}
            _ => {
                self.round(before, record, after);
                self.closed(before, record, told, after);
            }
        }
    }

    /// A close that came past 5, 12 and 13.
    fn closed(&mut self, before: &Held, record: &Record, told: &Told, after: &Held) {
        let &Told::Closing { refusal: 0, left, .. } = told else { return };
        let (node, base) = (node(before), after.common.base());
        let later = record.r + before.table.timeout();
        self.note_if(node.latest() > later, "close: the latest time stays");
        self.note_if(node.latest() < later, "close: the latest time moves");
        self.note_if(left == 1 && node.progress() + 1 == base, "close: left behind by one");
        self.note_if(left == 1 && node.running(), "close: left behind while a job runs");
        self.note_if(
            left == 0 && node.progress() == base && base > before.common.base(),
            "close: at the new base, not left behind",
        );
    }

    /// What a record met at a common record: the list that sessions have, and
    /// what only a caller can lend or be told.
    fn round(&mut self, before: &Held, record: &Record, after: &Held) {
        let mut common = before.common.clone();
        match close(&before.table, &mut common, record) {
            Ok(reply) => {
                self.accepted(&before.table, &before.common, record, &reply, &after.common);
                let nodes = before.table.nodes();
                let standing =
                    reply.classes[..nodes].iter().filter(|&&class| [0, 5].contains(&class)).count();
                self.note_if(reply.majority && standing == nodes / 2 + 1, "majority: by one");
                self.note_if(!reply.majority && standing == nodes / 2, "majority: short by one");
                self.note_if(reply.back_runner == 0, "back-runner: node 0");
                let further = reply.back_runner > 0 && reply.back_runner < Table::NODES;
                self.note_if(further, "back-runner: another node");
            }
            Err(Refusal::TooManyReleases) => {
                self.note_if(record.releases.len() == Common::TASKS + 1, "refusal 15: 65 releases lent");
            }
            Err(refusal) => self.refused_round(&before.table, &before.common, record, refusal),
        }
    }

    fn wide(&mut self, record: &Record) {
        let most = u64::MAX;
        self.note_if(record.r == most, "record: r is 2^64 - 1");
        let releases = &record.releases;
        self.note_if(releases.iter().any(|release| release.task == most), "record: a task of 2^64 - 1");
        self.note_if(releases.iter().any(|release| release.delay == most), "record: a delay of 2^64 - 1");
        let reports = || record.entries.iter().flatten();
        self.note_if(reports().any(|report| report.progress == most), "record: a progress of 2^64 - 1");
        let completion = reports().any(|report| report.completion == most);
        self.note_if(completion, "record: a completion time of 2^64 - 1");
        self.note_if(reports().any(|report| report.run == most), "record: a run of 2^64 - 1");
    }
}

fn node(held: &Held) -> &Node {
    held.node.as_ref().expect("a node")
}

/// How the bound of a position stands at a time.
struct Edge {
    /// Some task of higher priority allows just this projection.
    exact: bool,
    /// By how much it is broken at most; 0 where it holds.
    by: u64,
    /// The first task that breaks it.
    first: usize,
    /// All that break it have a job in the order, or none of them has.
    queued: bool,
    not_queued: bool,
}

impl Edge {
    fn of(table: &Table, common: &Common, position: u64, time: u64) -> Edge {
        let projection = common.projection(table, position);
        let allowed = |task: usize| common.earliest_at(task, time) + table.tasks()[task].slack;
        let higher = 0..common.task_at(position);
        let breaking: Vec<usize> = higher.clone().filter(|&task| allowed(task) < projection).collect();
        let queued = |task: &usize| common.jobs().contains(task);
        Edge {
            exact: higher.into_iter().any(|task| allowed(task) == projection),
            by: breaking.iter().map(|&task| projection - allowed(task)).max().unwrap_or(0),
            first: breaking.first().copied().unwrap_or(0),
            queued: breaking.iter().all(queued),
            not_queued: !breaking.iter().any(queued),
        }
    }
}
