//! A healthy node: every step goes through the library, and what it has started
//! is written down as the replies named it.

use reference::{Record, Report, Table};

use super::Broken;
use crate::doors::layout::*;
use crate::doors::model::words::{entry_words, release_words, table_words};
use crate::doors::{Call, Doors, Lent, Room, Told};
use crate::random::Random;

/// How a node stands with the others.
#[derive(Clone, Copy, Debug, PartialEq, Eq)]
pub enum Standing {
    Active,
    /// It was told so; nothing more is asked of the records.
    LeftBehind,
    /// It reported, the record holds its report, and never comes to it.
    Lost,
    /// It reports no more: with the next record of the others it is no longer one
    /// of them, and only the order by its own records is its measure.
    Silent,
}

/// How long its jobs take, beside their C.
#[derive(Clone, Copy, Debug)]
pub enum Pace {
    Prompt,
    Steady,
    Slow,
    Any,
}

impl Pace {
    /// How long a job of this C takes this time.
    pub fn duration(self, random: &mut Random, execution: u64) -> u64 {
        match self {
            Pace::Prompt => random.below(execution / 2 + 1),
            Pace::Steady => random.between(execution / 2, execution),
            Pace::Slow => execution + random.below(3 * execution),
            Pace::Any => random.pick(&[0, execution / 2, execution, execution + 1, 2 * execution]),
        }
    }
}

pub struct Healthy {
    pub number: usize,
    pub pace: Pace,
    pub standing: Standing,
    /// The tasks that the replies to its accepted starts named.
    pub started: Vec<u8>,
    /// How many of them stand in the orders of the others for good.
    pub shared: usize,
    /// How many records it has closed.
    pub closed: usize,
    /// What it sent last, as the reply gave it.
    pub sent: Option<Report>,
    lent: Lent,
}

impl Healthy {
    pub fn fresh(doors: &Doors, table: &Table, number: usize, pace: Pace) -> Result<Healthy, Broken> {
        let mut lent = Lent {
            table: Room::holding(&table_words(table)),
            state: Room::holding(&[0; NODE_WORDS]),
            ..Lent::default()
        };
        let told = doors(Call::FreshNode { number: number as u64 }, &mut lent);
        if told.refusal() != 0 {
            return Err(Broken::Step(format!("fresh node {number} was refused {}", told.refusal())));
        }
        let standing = Standing::Active;
        Ok(Healthy { number, pace, standing, started: Vec::new(), shared: 0, closed: 0, sent: None, lent })
    }

    fn word(&self, place: usize) -> u64 {
        self.lent.state[place]
    }

    pub fn progress(&self) -> u64 {
        self.word(NODE_PROGRESS)
    }

    pub fn running(&self) -> bool {
        self.word(NODE_RUNNING) == 1
    }

    pub fn latest(&self) -> u64 {
        self.word(NODE_LATEST)
    }

    pub fn open(&self) -> bool {
        self.word(NODE_OPEN) == 1
    }

    pub fn lock(&self) -> u64 {
        self.word(NODE_SENT) + self.word(NODE_SENT + 2)
    }

    pub fn start(&mut self, doors: &Doors, now: u64) -> u64 {
        let told = doors(Call::Start { now }, &mut self.lent);
        let Told::Value { refusal, value } = told else { unreachable!("a start tells a value") };
        if refusal == 0 {
            self.started.push(value as u8);
            if self.standing == Standing::Active {
                self.shared = self.started.len();
            }
        }
        refusal
    }

    pub fn finish(&mut self, doors: &Doors, now: u64) -> u64 {
        doors(Call::Finish { now }, &mut self.lent).refusal()
    }

    pub fn report(&mut self, doors: &Doors, r: u64) -> Result<Report, u64> {
        match doors(Call::Report { r }, &mut self.lent) {
            Told::Report { refusal: 0, progress, completed, run } => {
                let sent = Report { progress, completion: completed, run };
                self.sent = Some(sent);
                Ok(sent)
            }
            told => Err(told.refusal()),
        }
    }

    /// The classes, and whether the node is left behind now; or the refusal.
    pub fn close(&mut self, doors: &Doors, record: &Record) -> Result<([u8; NODES], bool), u64> {
        self.lent.releases = Room::holding(&release_words(&record.releases));
        self.lent.entries = Room::holding(&entry_words(&record.entries));
        match doors(Call::Close { r: record.r }, &mut self.lent) {
            Told::Closing { refusal: 0, left, classes, .. } => {
                self.closed += 1;
                Ok((classes, left == 1))
            }
            told => Err(told.refusal()),
        }
    }
}
