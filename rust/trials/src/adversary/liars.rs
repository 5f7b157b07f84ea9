//! What stands in a record at the places of those who keep to nothing: reports
//! about every threshold, what a healthy node sends, or none.

use reference::{Report, Table};

use crate::random::Random;
use crate::rounds::Around;

/// Who lies how in one round.
pub struct Liars<'a> {
    around: Around<'a>,
    r: u64,
    /// Where the reports of this round lie: from about here, up to the furthest
    /// position that keeps the bound.
    floor: u64,
    front: u64,
    /// What the healthy ones have sent.
    sent: Vec<Report>,
}

impl<'a> Liars<'a> {
    pub fn about(random: &mut Random, around: Around<'a>, r: u64, sent: Vec<Report>) -> Liars<'a> {
        let (base, front) = (around.common.base(), around.front(r));
        let floor = random.between(base, front);
        Liars { around, r, floor: random.pick(&[base, floor, front]), front, sent }
    }

    pub fn entry(&self, random: &mut Random) -> Option<Report> {
        match random.below(12) {
            0 | 1 => None,
            2 | 3 if !self.sent.is_empty() => Some(random.pick(&self.sent)),
            4 if !self.sent.is_empty() => {
                let other = random.pick(&self.sent);
                Some(Report { progress: random.about(other.progress), ..other })
            }
            5 => Some(self.at(random, self.front)),
            6 => Some(self.at(random, self.front + 1)),
            7 => Some(self.at(random, self.around.common.length())),
            _ => Some(self.around.report(random, self.r, self.floor, self.front, None)),
        }
    }

    /// A report whose front is this position, complete as late as it may be or
    /// earlier.
    fn at(&self, random: &mut Random, front: u64) -> Report {
        let Around { table, common, .. } = self.around;
        let run = random.below(2).min(front);
        let progress = front - run;
        let kept = progress.clamp(common.base(), common.length());
        let latest = common.projection(table, kept).min(self.r);
        Report { progress, completion: random.pick(&[latest, latest, 0, latest / 2]), run }
    }
}

/// The places of a table that are not the healthy ones', who hold their own.
pub fn places(table: &Table, entries: &[Option<Report>]) -> Vec<usize> {
    (0..table.nodes()).filter(|&place| entries[place].is_none()).collect()
}
