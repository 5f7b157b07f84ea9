//! The axis: where each moment and each round stands from left to right. Times
//! keep their order and not their distances: a place is as wide as what is
//! written there needs.

use std::collections::BTreeMap;

use crate::story::Place;
use crate::svg::Px;

/// A slot of the axis: a moment has no width, a round or fold has; a fold ends
/// later than it begins.
#[derive(Clone, Copy, Debug)]
struct Slot {
    left: Px,
    wide: Px,
    until: u64,
}

/// The axis with every slot at its place.
#[derive(Debug)]
pub struct Axis {
    slots: BTreeMap<Place, Slot>,
    /// Where the lanes end.
    pub right: Px,
}

/// What an axis must have room for.
#[derive(Debug, Default)]
pub struct Needs {
    wide: BTreeMap<Place, (Px, u64)>,
    apart: BTreeMap<Place, Vec<(Place, Px)>>,
    before: BTreeMap<Place, Px>,
}

/// Past every place: the end of the axis.
pub const END: Place = Place { time: u64::MAX, rank: usize::MAX, step: usize::MAX };

impl Needs {
    /// There is something at a place.
    pub fn moment(&mut self, at: Place) {
        self.wide.entry(at).or_insert((0, at.time));
    }

    /// A column of this width stands at a place, and tells of the time until
    /// another.
    pub fn column(&mut self, at: Place, until: u64, wide: Px) {
        self.wide.insert(at, (wide, until));
    }

    /// What begins at one place needs so much room before the other.
    pub fn room(&mut self, from: Place, to: Place, wide: Px) {
        self.apart.entry(to).or_default().push((from, wide));
    }

    /// So much room is left before a place.
    pub fn between(&mut self, before: Place, wide: Px) {
        let room = self.before.entry(before).or_insert(wide);
        *room = wide.max(*room);
    }

    /// The places from left to right.
    pub fn places(&self) -> Vec<Place> {
        self.wide.keys().copied().collect()
    }

    /// The axis that begins at x and has room for all.
    pub fn axis(&self, x: Px) -> Axis {
        let unit = self.least_distance();
        let mut slots: BTreeMap<Place, Slot> = BTreeMap::new();
        let mut before: Option<u64> = None;
        let mut right = x;
        for (&place, &(wide, until)) in self.wide.iter().chain([(&END, &(0, END.time))]) {
            let gap = match before {
                Some(before) if place != END => gap(place.time.saturating_sub(before), unit),
                _ => GAP,
            };
            let mut left = right + gap.max(self.before.get(&place).copied().unwrap_or(0));
            for (from, need) in self.apart.get(&place).into_iter().flatten() {
                left = left.max(slots.get(from).map_or(x, |slot| slot.left) + need);
            }
            slots.insert(place, Slot { left, wide, until });
            right = left + wide;
            before = Some(until);
        }
        Axis { slots, right }
    }

    /// The shortest time between two neighbours.
    fn least_distance(&self) -> u64 {
        let ends = self.wide.values().map(|(_, until)| until);
        let distances =
            self.wide.keys().skip(1).zip(ends).map(|(place, until)| place.time.saturating_sub(*until));
        distances.filter(|distance| *distance > 0).min().unwrap_or(1)
    }
}

/// Least room between neighbours.
const GAP: Px = 10;

/// Longer times are drawn longer, by each doubling.
fn gap(distance: u64, unit: u64) -> Px {
    let doublings = u64::BITS - (distance / unit).leading_zeros();
    GAP + 5 * Px::from(doublings.min(12))
}

impl Axis {
    fn slot(&self, at: Place) -> Slot {
        *self.slots.get(&at).expect("a place that was asked for")
    }

    /// The left end of a place.
    pub fn left(&self, at: Place) -> Px {
        self.slot(at).left
    }

    /// Where a time between two places stands, as far from both as it is in
    /// time.
    pub fn between(&self, at: Place) -> Px {
        let before = self.slots.range(..at).next_back();
        let after = self.slots.range(at..).next();
        match (before, after) {
            (Some((_, left)), Some((to, right))) if *to != END => {
                let (start, room) = (left.left + left.wide, right.left - left.left - left.wide);
                let since = |time: u64| time.saturating_sub(left.until);
                let (passed, whole) = (since(at.time), since(to.time).max(1));
                start + (i128::from(room) * i128::from(passed) / i128::from(whole)) as Px
            }
            (_, Some((_, slot))) => slot.left,
            _ => self.right,
        }
    }

    /// Its right end; a moment's is its left.
    pub fn right_of(&self, at: Place) -> Px {
        let slot = self.slot(at);
        slot.left + slot.wide
    }
}

#[cfg(test)]
mod tests {
    use super::{Needs, END};
    use crate::story::Place;

    fn at(time: u64) -> Place {
        Place { time, ..Place::default() }
    }

    #[test]
    fn what_is_later_stands_further_right_with_the_room_it_needs() {
        let mut needs = Needs::default();
        [3, 8, 9].into_iter().for_each(|time| needs.moment(at(time)));
        let round = Place { time: 10, rank: 1, step: 0 };
        needs.column(round, 10, 150);
        needs.room(at(3), at(9), 200);
        needs.room(round, END, 500);
        let axis = needs.axis(100);
        assert!(axis.left(at(3)) > 100);
        assert!(axis.left(at(8)) > axis.left(at(3)));
        assert!(axis.left(at(9)) >= axis.left(at(3)) + 200);
        assert_eq!(axis.right_of(round), axis.left(round) + 150);
        assert!(axis.right >= axis.left(round) + 500);
    }

    #[test]
    fn a_time_between_two_places_stands_between_them() {
        let mut needs = Needs::default();
        needs.column(at(0), 0, 50);
        needs.column(at(100), 100, 50);
        needs.between(at(100), 100);
        let axis = needs.axis(0);
        let (from, to) = (axis.right_of(at(0)), axis.left(at(100)));
        assert_eq!(axis.between(at(50)), from + (to - from) / 2);
        assert!(from < axis.between(at(1)) && axis.between(at(99)) < to);
        assert_eq!(axis.between(at(100)), to);
    }

    #[test]
    fn longer_times_are_not_drawn_shorter() {
        let mut needs = Needs::default();
        [0, 1, 3, 1000].into_iter().for_each(|time| needs.moment(at(time)));
        let axis = needs.axis(0);
        let wide = |from, to| axis.left(at(to)) - axis.left(at(from));
        assert!(wide(0, 1) < wide(1, 3) && wide(1, 3) < wide(3, 1000));
    }
}
