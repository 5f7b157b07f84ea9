//! Long stretches folded: rounds into a counted column, jobs of a long order
//! into counted rows.

use std::collections::VecDeque;

use crate::story::{Closed, Column, Place, Round};

/// Rounds that stand in one column.
#[derive(Clone, Debug, PartialEq, Eq)]
pub struct Fold {
    /// Where the first one stands.
    pub first: Place,
    /// Where the last one stands.
    pub last: Place,
    /// How many there are.
    pub rounds: u64,
    /// How many of them were refused.
    pub refused: u64,
    /// How many jobs they released.
    pub released: u64,
    /// How often each node had each class.
    pub classes: Vec<[u64; 6]>,
}

impl Fold {
    fn of(round: &Round) -> Fold {
        let mut fold = Fold {
            first: round.at,
            last: round.at,
            rounds: 0,
            refused: 0,
            released: 0,
            classes: vec![[0; 6]; round.cells.len()],
        };
        fold.take(round);
        fold
    }

    fn take(&mut self, round: &Round) {
        self.last = round.at;
        self.rounds += 1;
        match &round.outcome {
            Err(_) => self.refused += 1,
            Ok(Closed { told, .. }) => {
                self.released += round.releases.len() as u64;
                for (counts, class) in self.classes.iter_mut().zip(told.classes) {
                    counts[usize::from(class)] += 1;
                }
            }
        }
    }
}

/// Which rounds are drawn in full.
#[derive(Clone, Copy, Debug, PartialEq, Eq)]
pub enum Keep {
    /// The first and the last ones.
    Ends,
    /// Those from one number to another, counted from 1.
    Numbers(u64, u64),
}

/// Rounds drawn in full at the beginning and at the end of a long session.
const HEAD: u64 = 3;
const TAIL: usize = 5;

/// Takes rounds one by one and folds those that are not kept.
#[derive(Debug)]
pub struct Folding {
    keep: Keep,
    seen: u64,
    columns: Vec<Column>,
    tail: VecDeque<Round>,
}

impl Folding {
    /// Before the first round.
    pub fn new(keep: Keep) -> Folding {
        Folding { keep, seen: 0, columns: Vec::new(), tail: VecDeque::new() }
    }

    /// The next round.
    pub fn push(&mut self, round: Round) {
        self.seen += 1;
        match self.keep {
            Keep::Ends if self.seen <= HEAD => self.full(round),
            Keep::Ends => {
                self.tail.push_back(round);
                if self.tail.len() > TAIL {
                    let oldest = self.tail.pop_front();
                    oldest.into_iter().for_each(|round| self.fold(&round));
                }
            }
            Keep::Numbers(first, last) if (first..=last).contains(&self.seen) => self.full(round),
            Keep::Numbers(..) => self.fold(&round),
        }
    }

    fn full(&mut self, round: Round) {
        self.columns.push(Column::Round(Box::new(round)));
    }

    fn fold(&mut self, round: &Round) {
        match self.columns.last_mut() {
            Some(Column::Fold(fold)) => fold.take(round),
            _ => self.columns.push(Column::Fold(Fold::of(round))),
        }
    }

    /// The columns, when the last round has been.
    pub fn columns(mut self) -> Vec<Column> {
        for round in std::mem::take(&mut self.tail) {
            self.full(round);
        }
        self.columns
    }
}

/// A row of a drawn order.
#[derive(Clone, Debug, PartialEq, Eq)]
pub enum Row {
    /// One job.
    Job {
        /// Its position.
        position: u64,
        /// Its task.
        task: u64,
    },
    /// Several jobs, counted.
    Stretch {
        /// The first one's position.
        first: u64,
        /// The last one's.
        last: u64,
        /// The lowest and the highest task among them.
        tasks: (u64, u64),
    },
}

impl Row {
    /// The last position in it.
    pub fn last(&self) -> u64 {
        match self {
            Row::Job { position, .. } => *position,
            Row::Stretch { last, .. } => *last,
        }
    }

    /// The first position in it.
    pub fn first(&self) -> u64 {
        match self {
            Row::Job { position, .. } => *position,
            Row::Stretch { first, .. } => *first,
        }
    }
}

/// Orders of up to so many jobs are drawn in full.
pub const FULL: usize = 14;

/// Jobs that are always drawn in full in a long order: at its beginning, at
/// either side of the offset, and at its end.
const NEAR: u64 = 2;

/// The rows of an order that begins past the base. What is far from base, offset
/// and end is counted in stretches.
pub fn rows(base: u64, offset: u64, order: &[u64]) -> Vec<Row> {
    let jobs = (base + 1..).zip(order.iter().copied());
    if order.len() <= FULL {
        return jobs.map(|(position, task)| Row::Job { position, task }).collect();
    }
    let length = base + order.len() as u64;
    let near = |position: u64| {
        position <= base + NEAR
            || position > length - NEAR
            || (position > offset.saturating_sub(NEAR) && position <= offset + NEAR)
    };
    let mut rows: Vec<Row> = Vec::new();
    for (position, task) in jobs {
        match rows.last_mut() {
            Some(Row::Stretch { last, tasks, .. }) if !near(position) => {
                *last = position;
                *tasks = (tasks.0.min(task), tasks.1.max(task));
            }
            _ if near(position) => rows.push(Row::Job { position, task }),
            _ => rows.push(Row::Stretch { first: position, last: position, tasks: (task, task) }),
        }
    }
    rows
}

#[cfg(test)]
mod tests {
    use super::{rows, Row};

    #[test]
    fn a_short_order_is_drawn_in_full() {
        let job = |position, task| Row::Job { position, task };
        assert_eq!(rows(3, 4, &[7, 8]), [job(4, 7), job(5, 8)]);
        assert_eq!(rows(0, 0, &[1; 14]).len(), 14);
        assert!(rows(9, 9, &[]).is_empty());
    }

    /// Whatever is folded, every position stands in one row.
    fn positions(rows: &[Row]) -> Vec<u64> {
        rows.iter().flat_map(|row| row.first()..=row.last()).collect()
    }

    #[test]
    fn a_long_order_is_folded_between_base_offset_and_end() {
        let order: Vec<u64> = (0..256).map(|place| place / 4).collect();
        for offset in [10, 11, 12, 13, 100, 264, 265, 266] {
            let rows = rows(10, offset, &order);
            assert_eq!(positions(&rows), (11..=266).collect::<Vec<_>>(), "offset {offset}");
            assert!(rows.len() <= 10, "{} rows for offset {offset}", rows.len());
            let full = |position| rows.contains(&Row::Job { position, task: order[position as usize - 11] });
            assert!([11, 12, 265, 266].into_iter().all(full));
            let around = (offset - 1).max(11)..=(offset + 2).min(266);
            assert!(around.clone().all(full), "around offset {offset}");
        }
    }

    #[test]
    fn a_stretch_names_its_lowest_and_highest_task() {
        let mut order = vec![5; 20];
        assert!(rows(0, 0, &order).contains(&Row::Stretch { first: 3, last: 18, tasks: (5, 5) }));
        (order[10], order[11]) = (9, 2);
        assert!(rows(0, 0, &order).contains(&Row::Stretch { first: 3, last: 18, tasks: (2, 9) }));
    }
}
