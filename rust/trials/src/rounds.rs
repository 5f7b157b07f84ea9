//! Round records for the trials, made beside a common record of the reference:
//! times, reports and releases are chosen where its rules turn, at the base, the
//! offset, the length, the projections, the edge of the bound and the earliest
//! releases, and one less and one more.

use reference::judge::judge;
use reference::{close, Common, Record, Release, Report, Table, LATEST_TIME};

use crate::random::Random;

/// How a session is played.
#[derive(Clone, Copy, Debug)]
pub struct Mood {
    /// The first round lies about here.
    pub first: u64,
    /// Of 1000 records, how many are meant to be refused.
    pub spoilt: u64,
    /// Of 1000 reports, how many hold something far off.
    pub stray: u64,
    /// Release whatever may be released, and report little, to fill the order.
    pub crowded: bool,
}

pub struct Play<'a> {
    table: &'a Table,
    common: Common,
    mood: Mood,
}

impl<'a> Play<'a> {
    pub fn new(table: &'a Table, mood: Mood) -> Play<'a> {
        Play { table, common: Common::fresh(), mood }
    }

    /// The next record, which the play has closed unless it is refused.
    pub fn next(&mut self, random: &mut Random) -> (Record, bool) {
        let record = Around { table: self.table, common: &self.common, mood: self.mood }.record(random);
        let accepted = close(self.table, &mut self.common, &record).is_ok();
        (record, accepted)
    }
}

/// A common record, around which times, reports and releases are chosen.
#[derive(Clone, Copy)]
pub struct Around<'a> {
    pub table: &'a Table,
    pub common: &'a Common,
    pub mood: Mood,
}

impl Around<'_> {
    /// A record that a station may be given next.
    pub fn record(&self, random: &mut Random) -> Record {
        let r = self.time(random);
        let mut record = Record { r, releases: Vec::new(), entries: self.entries(random, r) };
        record.releases = self.releases(random, &record);
        if random.chance(self.mood.spoilt, 1000) {
            self.spoil(random, &mut record);
        }
        record
    }

    /// The least r that is not refused 14.
    pub fn soonest(&self) -> u64 {
        self.common.last_round().map_or(0, |last| last + self.table.timeout())
    }

    /// The next round's time.
    pub fn time(&self, random: &mut Random) -> u64 {
        if self.common.last_round().is_none() {
            return self.mood.first;
        }
        let soonest = self.soonest();
        let wanted = match random.below(if self.mood.crowded { 4 } else { 8 }) {
            0 => soonest + random.below(30),
            1 | 2 => self.common.earliest(self.task(random)),
            3 | 4 => soonest,
            5 => self.projection(random),
            _ => self.bound_edge(random),
        };
        random.near(wanted).max(soonest).min(LATEST_TIME)
    }

    fn task(&self, random: &mut Random) -> usize {
        random.below(self.table.tasks().len() as u64) as usize
    }

    fn position(&self, random: &mut Random) -> u64 {
        random.between(self.common.base(), self.common.length())
    }

    /// The projection of some position.
    pub fn projection(&self, random: &mut Random) -> u64 {
        self.common.projection(self.table, self.position(random))
    }

    /// A time at which the bound of some position begins to hold for a task.
    pub fn bound_edge(&self, random: &mut Random) -> u64 {
        let higher = self.task(random);
        self.projection(random).saturating_sub(self.table.tasks()[higher].slack)
    }

    /// The first time at which the bound holds for a position from B + 1 to L.
    pub fn bound_from(&self, position: u64) -> u64 {
        let projection = self.common.projection(self.table, position);
        let higher = self.table.tasks().iter().take(self.common.task_at(position)).enumerate();
        higher
            .filter(|(task, higher)| self.common.earliest(*task) + higher.slack < projection)
            .map(|(_, higher)| projection - higher.slack)
            .max()
            .unwrap_or(0)
    }

    /// Releases for a record whose entries are known.
    pub fn releases(&self, random: &mut Random, record: &Record) -> Vec<Release> {
        let base = judge(self.table, self.common, record).base;
        let count = if self.mood.crowded { self.fill(random, base) } else { random.weighted(FEW) };
        let mut tasks: Vec<usize> = (0..self.table.tasks().len()).collect();
        let mut releases: Vec<Release> = Vec::new();
        while releases.len() < count && !tasks.is_empty() {
            let task = tasks.swap_remove(random.below(tasks.len() as u64) as usize);
            let before = releases.last().map(|release| release.delay);
            if let Some(delay) = self.delay(random, record.r, task, before) {
                releases.push(Release { task: task as u64, delay });
            }
        }
        releases
    }

    /// A delay with which a task may stand next in the list, if there is one.
    fn delay(&self, random: &mut Random, r: u64, task: usize, before: Option<u64>) -> Option<u64> {
        let least = self.common.earliest(task).saturating_sub(r).max(before.unwrap_or(0));
        let most = if before.is_none() { 0 } else { self.table.timeout() - 1 };
        if least > most {
            return None;
        }
        let between = random.between(least, most);
        Some(random.pick(&[least, least, least, between, most]))
    }

    /// How many releases take the order to its limit, one short or one past,
    /// with the base that the round moves to.
    fn fill(&self, random: &mut Random, base: u64) -> usize {
        let room = Common::PLACES - (self.common.length() - base) as usize;
        let about = random.near(room as u64) as usize;
        random.weighted(&[(6, about), (2, room / 2), (1, 0)])
    }

    /// The last position up to which every one past the offset keeps the bound.
    pub fn front(&self, r: u64) -> u64 {
        self.common
            .kept(self.table)
            .filter(|job| job.position > self.common.offset())
            .take_while(|&job| self.common.breaking(self.table, job, r).is_none())
            .last()
            .map_or(self.common.offset(), |job| job.position)
    }

    /// One entry a node.
    pub fn entries(&self, random: &mut Random, r: u64) -> Vec<Option<Report>> {
        let front = self.front(r);
        let base = self.common.base();
        let further = random.between(base, front.min(base + 3));
        let floor = random.weighted(&[(3, base), (2, further), (1, front)]);
        let missing = if self.mood.crowded { 5 } else { 1 };
        let mut entries: Vec<Option<Report>> = Vec::new();
        let all_missing = random.chance(missing, 10);
        for _ in 0..self.table.nodes() {
            if all_missing || random.chance(1, 6) {
                entries.push(None);
                continue;
            }
            let other = entries.iter().flatten().next_back().copied();
            entries.push(Some(self.report(random, r, floor, front, other)));
        }
        entries
    }

    /// A report between a floor and a front, or about them; `other` is the report before it.
    pub fn report(
        &self,
        random: &mut Random,
        r: u64,
        floor: u64,
        front: u64,
        other: Option<Report>,
    ) -> Report {
        let mut progress = self.progress(random, floor, front);
        if random.chance(7, 8) {
            progress = progress.max(floor);
        }
        if let Some(other) = other.filter(|_| random.chance(1, 3)) {
            progress = other.progress;
        }
        let idle = progress >= self.common.length() && random.chance(7, 8);
        let mut run = if idle { 0 } else { random.below(2) };
        let mut completion = self.completion(random, r, progress, other);
        if random.chance(self.mood.stray, 1000) {
            let far = random.wide();
            let few = random.between(2, 3);
            let field = random.pick(&[0, 1, 2]);
            *[&mut progress, &mut completion, &mut run][field] = random.pick(&[far, far, few]);
        }
        Report { progress, completion, run }
    }

    fn progress(&self, random: &mut Random, floor: u64, front: u64) -> u64 {
        let (base, offset, length) = (self.common.base(), self.common.offset(), self.common.length());
        match random.below(16) {
            0 => base,
            1 => base.saturating_sub(1),
            2 => random.near(offset),
            3 => offset.saturating_sub(1),
            4 => random.near(length),
            5 => front + 1,
            6 | 7 => front,
            8 => random.between(base, length),
            _ => random.between(floor, front),
        }
    }

    fn completion(&self, random: &mut Random, r: u64, progress: u64, other: Option<Report>) -> u64 {
        let kept = progress.clamp(self.common.base(), self.common.length());
        let projection = self.common.projection(self.table, kept);
        match random.below(16) {
            0 | 1 => random.near(projection),
            2 => random.near(r),
            3 => r,
            4 => random.near(self.common.next_start()),
            5 => 0,
            6 | 7 => random.near(other.map_or(0, |other| other.completion)),
            8 | 9 => projection.min(r),
            10 => random.between(self.common.next_start().min(r), r),
            _ => random.below(projection.min(r).saturating_add(1)),
        }
    }

    /// Changes a record so that it is most likely refused.
    pub fn spoil(&self, random: &mut Random, record: &mut Record) {
        match random.below(16) {
            0 | 1 => record.r = self.soonest().saturating_sub(1),
            2 => record.r = random.near(LATEST_TIME + 1),
            3 => record.r = random.wide(),
            4 => drop(record.entries.pop()),
            5 => record.entries.push(None),
            6 => record.entries.resize(random.pick(&[15, 16, 17]), None),
            7 => record.releases.resize(random.pick(&[64, 65, 66, 200]), Release { task: 0, delay: 0 }),
            8 | 9 => self.too_early(random, record),
            _ => self.spoil_release(random, &mut record.releases),
        }
    }

    /// A release one before its E, where a round can lie there.
    fn too_early(&self, random: &mut Random, record: &mut Record) {
        let task = self.task(random);
        record.r = self.common.earliest(task).saturating_sub(1).max(self.soonest());
        record.releases = vec![Release { task: task as u64, delay: 0 }];
    }

    fn spoil_release(&self, random: &mut Random, releases: &mut Vec<Release>) {
        let tasks = self.table.tasks().len() as u64;
        let timeout = self.table.timeout();
        if releases.is_empty() {
            releases.push(Release { task: self.task(random) as u64, delay: 0 });
        }
        let first = releases[0];
        let place = random.below(releases.len() as u64) as usize;
        match random.below(6) {
            0 => {
                releases[place].task =
                    random.pick(&[tasks, tasks, tasks + 1, 255, 256, 1 << 32, (1 << 63) - 1])
            }
            1 => releases[0].delay = random.pick(&[1, timeout - 1]),
            2 => {
                releases[place].delay = random.pick(&[timeout, timeout, timeout + 1, 1 << 32, (1 << 63) - 1])
            }
            3 => releases.push(Release { task: (first.task + 1) % tasks, delay: timeout }),
            4 => releases.push(first),
            _ => {
                releases.push(Release { task: (first.task + 1) % tasks, delay: timeout - 1 });
                releases.push(Release { task: (first.task + 2) % tasks, delay: timeout.saturating_sub(2) });
            }
        }
    }
}

/// How many releases a round asks for outside a crowd, and how often.
const FEW: &[(u64, usize)] = &[(3, 0), (4, 1), (4, 2), (2, 3), (1, 64)];
