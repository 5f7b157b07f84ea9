//! Notes on an accepted round: its classes and their edges, the offset, the
//! back-runner, the time, the releases and the room in the order.

use reference::common::Kept;
use reference::{Common, Record, Reply, Report, Table, LATEST_TIME};

use super::Reached;

/// A report with a stretch of so many positions past O is far out.
const FAR: usize = 64;

impl Reached {
    pub(crate) fn accepted(
        &mut self,
        table: &Table,
        before: &Common,
        record: &Record,
        reply: &Reply,
        after: &Common,
    ) {
        for (node, entry) in record.entries.iter().enumerate() {
            let class = reply.classes[node];
            match entry {
                None => self.note("class 1"),
                Some(report) => self.report(table, before, record.r, *report, class),
            }
        }
        self.offset(before, record, reply, after);
        self.back_runner(table, before, record, reply, after);
        self.time(table, before, record);
        self.releases(table, before, record, after);
        self.room(before, record, after);
    }

    fn report(&mut self, table: &Table, common: &Common, r: u64, report: Report, class: u8) {
        match class {
            0 => self.class_0(table, common, r, report),
            2 => self.class_2(common, r, report),
            3 => {
                self.note("class 3");
                self.note_if(report.progress + 1 == common.base(), "class 3: by one");
            }
            4 => self.class_4(table, common, r, report),
            5 => self.class_5(table, common, r, report),
            other => unreachable!("a report has no class {other}"),
        }
    }

    fn class_0(&mut self, table: &Table, common: &Common, r: u64, report: Report) {
        let projection = |position| common.projection(table, position);
        self.note("class 0");
        self.note_if(report.completion == r, "class 0: completion at r");
        self.note_if(
            report.completion == projection(report.progress),
            "class 0: completion at the projection",
        );
        self.note_if(report.progress + report.run == common.length(), "class 0: progress + run at L");
        let owed = report.progress < common.offset() && projection(report.progress + 1) == r;
        self.note_if(owed, "class 0: next projection at r");
        let stretch = stretch(table, common, report);
        self.note_if(stretch.len() >= FAR, "class 0: 64 positions or more past O");
        let exact = stretch
            .iter()
            .flat_map(|&job| (0..job.task).map(move |higher| (job, higher)))
            .any(|(job, higher)| job.projection == allowed(table, common, higher, r));
        self.note_if(exact, "class 0: bound met exactly");
    }

    fn class_2(&mut self, common: &Common, r: u64, report: Report) {
        let front = u128::from(report.progress) + u128::from(report.run);
        let length = u128::from(common.length());
        self.note_if(report.run > 1, "class 2: run above 1");
        self.note_if(report.run <= 1 && front > length, "class 2: progress + run above L");
        self.note_if(report.run <= 1 && front == length + 1, "class 2: progress + run is L + 1");
        let after = report.run <= 1 && front <= length && report.completion > r;
        self.note_if(after, "class 2: completion after r");
        self.note_if(after && report.completion == r + 1, "class 2: completion at r + 1");
        self.note_if(report.progress < common.base(), "class 2: progress below B too");
        let widest = report.progress.max(report.completion).max(report.run);
        self.note_if(widest >= 1 << 62, "class 2: a value of 2^62 or more");
    }

    fn class_4(&mut self, table: &Table, common: &Common, r: u64, report: Report) {
        let mut breaks = Vec::new();
        let stretch = stretch(table, common, report);
        for job in &stretch {
            for higher in 0..job.task {
                let allowed = allowed(table, common, higher, r);
                if job.projection > allowed {
                    breaks.push((job.position, higher, job.projection - allowed));
                }
            }
        }
        let queued = |higher: usize| common.jobs().contains(&higher);
        self.note("class 4");
        self.note_if(breaks.iter().all(|&(_, _, by)| by == 1), "class 4: by one microsecond");
        self.note_if(
            breaks.iter().all(|&(_, higher, _)| queued(higher)),
            "class 4: only by tasks that are queued",
        );
        let not_queued = breaks.iter().all(|&(_, higher, _)| !queued(higher));
        self.note_if(not_queued, "class 4: only by a task that is not queued");
        let by_run = breaks.iter().all(|&(position, _, _)| position == report.progress + 1);
        self.note_if(report.run == 1 && by_run, "class 4: by run alone");
        let (first, last) = (breaks[0].0, report.progress + report.run);
        self.note_if(first == common.offset() + 1, "class 4: first broken at O + 1");
        let on_the_way = common.offset() + 1 < first && first < last;
        self.note_if(on_the_way, "class 4: first broken on the way");
        self.note_if(stretch.len() > 1 && first == last, "class 4: broken at the last position alone");
        self.note_if(stretch.len() >= FAR, "class 4: 64 positions or more past O");
    }

    fn class_5(&mut self, table: &Table, common: &Common, r: u64, report: Report) {
        let projection = common.projection(table, report.progress);
        if report.completion > projection {
            self.note("class 5: completion after the projection");
            self.note_if(report.completion == projection + 1, "class 5: completion by one");
        } else {
            self.note("class 5: next projection before r");
            let next = common.projection(table, report.progress + 1);
            self.note_if(next + 1 == r, "class 5: next projection by one");
        }
    }

    fn offset(&mut self, before: &Common, record: &Record, reply: &Reply, after: &Common) {
        let front = |class| {
            let fronts = of_class(record, reply, class).map(|(_, report)| report.progress + report.run);
            fronts.max().unwrap_or(0)
        };
        let moved = after.offset() > before.offset();
        self.note_if(moved && front(5) > front(0), "offset: moved by class 5 alone");
        self.note_if(front(4) > after.offset(), "offset: class 4 left out");
        let lower = front(0).max(front(5)) < before.offset();
        self.note_if(lower && after.offset() == before.offset(), "offset: kept though all fronts are lower");
    }

    fn back_runner(
        &mut self,
        table: &Table,
        before: &Common,
        record: &Record,
        reply: &Reply,
        after: &Common,
    ) {
        let Some(least) = of_class(record, reply, 0).map(|(_, report)| report.progress).min() else {
            return self.note("back-runner: none");
        };
        let starts: Vec<u64> = of_class(record, reply, 0)
            .filter(|(_, report)| report.progress == least)
            .map(
                |(_, report)| {
                    if least == before.length() {
                        record.r + table.timeout()
                    } else {
                        report.completion
                    }
                },
            )
            .collect();
        let largest = *starts.iter().max().expect("the node with the least progress");
        let reaching = starts.iter().filter(|&&start| start == largest).count();
        self.note_if(reaching < starts.len(), "back-runner: equal progress, other starts");
        self.note_if(reaching > 1, "back-runner: several with the largest start");
        self.note_if(least == before.length(), "back-runner: nothing left to run");
        self.note_if(after.base() > before.base(), "back-runner: base moves on");
        let further_back = of_class(record, reply, 5).any(|(_, report)| report.progress < least);
        self.note_if(further_back, "back-runner: class 5 further back left out");
        self.note(if largest < before.next_start() { "next start: kept" } else { "next start: moved" });
    }

    fn time(&mut self, table: &Table, before: &Common, record: &Record) {
        match before.last_round() {
            Some(last) => self.note_if(record.r == last + table.timeout(), "round: at last + timeout"),
            None => self.note(if record.r == 0 { "round: first at 0" } else { "round: first after 0" }),
        }
        let nothing = record.releases.is_empty() && record.entries.iter().all(Option::is_none);
        self.note_if(nothing, "round: nothing in it");
        self.note_if(record.r == LATEST_TIME, "round: at 2^48 - 1");
        self.note_if(record.r.abs_diff(1 << 32) < 100, "round: about 2^32");
    }

    fn releases(&mut self, table: &Table, before: &Common, record: &Record, after: &Common) {
        for release in &record.releases {
            let at_earliest = record.r + release.delay == before.earliest(release.task as usize);
            let again = at_earliest && before.earliest(release.task as usize) > 0;
            self.note_if(again, "release: at E");
            self.note_if(again && release.delay > 0, "release: at E by its delay");
            let last_delay = release.delay > 0 && release.delay + 1 == table.timeout();
            self.note_if(last_delay, "release: delay at timeout - 1");
        }
        if let Some(first) = record.releases.first() {
            self.insertion(before, first.task as usize, after.offset());
        }
    }

    /// Where the first release of a list went among the jobs past the offset.
    fn insertion(&mut self, before: &Common, task: usize, offset: u64) {
        let past = |offset: u64| &before.jobs()[(offset - before.base()) as usize..];
        let ahead = past(offset).iter().filter(|&&other| other <= task).count();
        let behind = past(offset).len() - ahead;
        self.note_if(ahead == 0 && behind > 0, "release: at O + 1, ahead of others");
        self.note_if(ahead > 0 && behind > 0, "release: between others");
        self.note_if(ahead > 0 && behind == 0, "release: last");
        let fixed_now = (offset - before.offset()) as usize;
        let overtaken = past(before.offset())[..fixed_now].iter().any(|&other| other > task);
        self.note_if(overtaken, "release: would stand before the new offset by the old one");
    }

    fn room(&mut self, before: &Common, record: &Record, after: &Common) {
        let full = after.jobs().len() == Common::PLACES;
        let by_the_old_base = before.jobs().len() + record.releases.len() > Common::PLACES;
        self.note_if(full, "order: 256 kept");
        self.note_if(full && by_the_old_base, "order: 256 kept by the new base");
    }
}

fn of_class<'a>(
    record: &'a Record,
    reply: &'a Reply,
    class: u8,
) -> impl Iterator<Item = (usize, Report)> + 'a {
    let entries = record.entries.iter().enumerate();
    entries
        .filter(move |(node, _)| reply.classes[*node] == class)
        .filter_map(|(node, entry)| entry.map(|report| (node, report)))
}

/// The jobs at positions O + 1 to progress + run of a report that is well formed.
fn stretch(table: &Table, common: &Common, report: Report) -> Vec<Kept> {
    let front = report.progress + report.run;
    common.kept(table).filter(|job| common.offset() < job.position && job.position <= front).collect()
}

/// The latest projection that a task of higher priority allows.
fn allowed(table: &Table, common: &Common, higher: usize, time: u64) -> u64 {
    common.earliest_at(higher, time) + table.tasks()[higher].slack
}
