//! The next call of a script, chosen where a rule turns for the state as it
//! stands: the latest time, O, the lock, the projection, the bound, E, the
//! timeout, 2^48, and one less and one more; and values up to 2^64 - 1.

use reference::{Node, Record, Release, Report, LATEST_TIME};

use crate::doors::model::Held;
use crate::doors::scripts::Step;
use crate::doors::Call;
use crate::random::Random;
use crate::rounds::{Around, Mood};

/// How a script is played.
#[derive(Clone, Copy, Debug)]
pub struct Manner {
    pub mood: Mood,
    /// Starts at once and finishes early, and so comes past O and to the bound.
    pub eager: bool,
}

pub fn step(random: &mut Random, held: &Held, manner: Manner) -> Step {
    let around = Around { table: &held.table, common: &held.common, mood: manner.mood };
    let Some(node) = &held.node else {
        let mut record = around.record(random);
        widen(random, &mut record);
        return Step { call: Call::CloseStation { r: record.r }, record };
    };
    let acting = Acting { around, node, eager: manner.eager };
    let weights = match (node.round.is_some(), node.running) {
        (false, false) if manner.eager => [80, 3, 12, 3],
        (false, true) if manner.eager => [4, 80, 12, 3],
        (false, false) => [45, 5, 40, 5],
        (false, true) => [6, 50, 35, 4],
        (true, false) => [25, 4, 4, 60],
        (true, true) => [5, 30, 4, 55],
    };
    let call = match random.weighted(&[(weights[0], 0), (weights[1], 1), (weights[2], 2), (weights[3], 3)]) {
        0 => Call::Start { now: acting.time(random, Acting::start) },
        1 => Call::Finish { now: acting.time(random, Acting::finish) },
        2 => Call::Report { r: acting.time(random, Acting::report) },
        _ => {
            let record = acting.record(random);
            return Step { call: Call::Close { r: record.r }, record };
        }
    };
    Step { call, record: Record::default() }
}

struct Acting<'a> {
    around: Around<'a>,
    node: &'a Node,
    eager: bool,
}

impl Acting<'_> {
    /// A time from the latest on, mostly about the one wanted; a few are refused.
    fn time(&self, random: &mut Random, wanted: fn(&Self, &mut Random) -> u64) -> u64 {
        let wanted = wanted(self, random);
        let latest = self.node.latest();
        match random.below(40) {
            0 => latest.saturating_sub(1),
            1 => random.about(latest),
            2 => random.about(LATEST_TIME + 1),
            3 => random.widest(),
            _ => random.about(wanted).max(latest),
        }
    }

    /// The position that would start next, where the node may have one.
    fn next(&self) -> Option<u64> {
        let common = self.around.common;
        let position = self.node.progress() + 1;
        (common.base() < position && position <= common.length()).then_some(position)
    }

    fn start(&self, random: &mut Random) -> u64 {
        let soon = self.node.latest() + random.below(40);
        let permitted = self.next().map_or(soon, |position| self.around.bound_from(position));
        let at_once = if self.eager { 8 } else { 3 };
        random.weighted(&[(4, permitted), (at_once, self.node.latest()), (1, soon)])
    }

    fn finish(&self, random: &mut Random) -> u64 {
        let Around { table, common, .. } = self.around;
        let latest = self.node.latest();
        let Some(position) = self.next() else { return latest };
        let full = latest + table.tasks()[common.task_at(position)].execution;
        let part = random.between(latest, full);
        let over = full + random.below(100);
        let projected = common.projection(table, position);
        let early = if self.eager { 30 } else { 2 };
        random.weighted(&[(early, latest), (2, part), (2, full), (2, over), (3, projected)])
    }

    fn report(&self, random: &mut Random) -> u64 {
        let Around { table, common, .. } = self.around;
        let next = self.around.time(random);
        let mut wanted = vec![next, next, self.node.latest()];
        if self.node.progress() >= common.base() {
            // "projection(progress) < r + timeout"
            let projection = common.projection(table, self.node.progress());
            wanted.push(projection.saturating_sub(table.timeout()));
        }
        if let Some(position) = self.next() {
            wanted.push(self.around.bound_from(position));
        }
        random.pick(&wanted)
    }

    /// The record of the open round, mostly with the own entry as it was sent.
    fn record(&self, random: &mut Random) -> Record {
        let around = self.around;
        let r = self.node.round().map_or_else(|| around.time(random), |round| round.r);
        let mut record = Record { r, releases: Vec::new(), entries: around.entries(random, r) };
        if let Some(round) = self.node.round() {
            record.entries[self.node.number] = Some(round.sent);
        }
        if r <= LATEST_TIME {
            record.releases = around.releases(random, &record);
        }
        if random.chance(1, 4) {
            record.releases.clear();
        }
        if random.chance(around.mood.spoilt, 1000) {
            around.spoil(random, &mut record);
        }
        match random.below(30) {
            0 => record.r = random.about(record.r),
            1 => record.entries.truncate(self.node.number),
            2 | 3 if record.entries.len() > self.node.number => {
                spoil_own(random, &mut record.entries[self.node.number]);
            }
            4 => record.releases = vec![Release { task: 0, delay: 0 }; random.pick(&[64, 65, 66])],
            _ => widen(random, &mut record),
        }
        record
    }
}

/// The own entry missing, or one number of it off by one.
fn spoil_own(random: &mut Random, entry: &mut Option<Report>) {
    match entry {
        Some(report) if random.chance(4, 5) => {
            let number = field(random, report);
            *number = random.pick(&[number.saturating_sub(1), number.saturating_add(1)]);
        }
        _ => *entry = None,
    }
}

/// Now and then puts a value up to 2^64 - 1 at some place of a record.
fn widen(random: &mut Random, record: &mut Record) {
    let far = random.widest();
    let releases = record.releases.len() as u64;
    let entries = record.entries.len() as u64;
    match random.below(60) {
        0 => record.r = far,
        1 if releases > 0 => record.releases[random.below(releases) as usize].task = far,
        2 if releases > 0 => record.releases[random.below(releases) as usize].delay = far,
        3 | 4 if entries > 0 => {
            let place = random.below(entries) as usize;
            *field(random, record.entries[place].get_or_insert_default()) = far;
        }
        _ => {}
    }
}

fn field<'a>(random: &mut Random, report: &'a mut Report) -> &'a mut u64 {
    match random.below(3) {
        0 => &mut report.progress,
        1 => &mut report.completion,
        _ => &mut report.run,
    }
}
