//! The records of a cabinet: what the healthy nodes sent, what the others make up,
//! and releases; and the orders that the records give, by the reference.

use reference::{close, Common, Record, Reply, Report};

use super::super::healthy::Standing;
use super::super::liars::{places, Liars};
use super::super::met::Met;
use super::super::Broken;
use super::{Cabinet, Made};
use crate::random::Random;

impl Cabinet<'_> {
    /// The record of the next round, once everyone who counts has reported. Where
    /// the reference refuses it, it is offered all the same and the round stays
    /// open; then it goes without releases.
    pub(super) fn make(&mut self, random: &mut Random, met: &mut Met) -> Result<(), Broken> {
        let closed = self.made.len();
        let mut record = Record { r: self.next, releases: Vec::new(), entries: self.sent() };
        let liars = places(&self.table, &record.entries);
        self.lie(random, &liars, &mut record);
        record.releases = self.around(closed).releases(random, &record);
        if close(&self.table, &mut self.commons[closed].clone(), &record).is_err() {
            self.offer(&record, met)?;
            record.releases.clear();
        }
        let mut common = self.commons[closed].clone();
        let reply = close(&self.table, &mut common, &record)
            .map_err(|refusal| Broken::Step(format!("{record:?} cannot stand: {refusal:?}")))?;
        let holds: Vec<usize> = self.active().map(|own| own.number).collect();
        judged(&record, &reply, &holds, &liars, met)?;
        self.append(common, met);
        self.made.push(Made { record, holds });
        self.announce(random);
        Ok(())
    }

    /// One entry a node, with the reports of those who sent one.
    fn sent(&self) -> Vec<Option<Report>> {
        let mut entries = vec![None; self.table.nodes()];
        for own in self.active() {
            entries[own.number] = own.sent;
        }
        entries
    }

    fn lie(&self, random: &mut Random, liars: &[usize], record: &mut Record) {
        let sent = record.entries.iter().flatten().copied().collect();
        let lies = Liars::about(random, self.around(self.made.len()), record.r, sent);
        for &place in liars {
            record.entries[place] = lies.entry(random);
        }
    }

    /// Everyone is offered a record that cannot stand.
    fn offer(&mut self, record: &Record, met: &mut Met) -> Result<(), Broken> {
        for own in self.healthy.iter_mut().filter(|own| own.standing == Standing::Active) {
            met.steps += 1;
            if own.close(self.doors, record).is_ok() {
                let what = format!("node {} closed {record:?}, which cannot stand", own.number);
                return Err(Broken::Step(what));
            }
        }
        met.refused_records += 1;
        Ok(())
    }

    /// The whole order after one more record: what is dropped from the common
    /// record stays at the front.
    fn append(&mut self, common: Common, met: &mut Met) {
        let before = self.orders.last().expect("the order of a fresh start");
        let dropped = &before[..common.base() as usize];
        let order: Vec<u8> =
            dropped.iter().copied().chain(common.jobs().iter().map(|&task| task as u8)).collect();
        met.overtaking += u64::from(!order.starts_with(before));
        self.orders.push(order);
        self.commons.push(common);
    }

    /// When the next round is: no earlier than anyone's latest time.
    fn announce(&mut self, random: &mut Random) {
        let around = self.around(self.made.len());
        let latest = self.active().map(|own| own.latest()).max().unwrap_or(0);
        let (about, soon) = (around.time(random), latest + random.below(60));
        self.next = random.pick(&[about, soon]).max(latest).max(around.soonest());
    }
}

/// No healthy report is of class 1 to 4, by the reference's judgement; and what
/// the liars came to.
fn judged(
    record: &Record,
    reply: &Reply,
    holds: &[usize],
    liars: &[usize],
    met: &mut Met,
) -> Result<(), Broken> {
    for &number in holds {
        match reply.classes[number] {
            0 => met.on_time += 1,
            5 => met.late += 1,
            class => {
                let what = format!("healthy node {number} sent a report of class {class}: {record:?}");
                return Err(Broken::Sentence(what));
            }
        }
    }
    for &place in liars {
        met.lies[usize::from(reply.classes[place])] += 1;
    }
    met.over_bound += u64::from(liars.iter().any(|&place| reply.classes[place] == 4));
    met.outnumbered += u64::from(liars.len() > holds.len());
    Ok(())
}
