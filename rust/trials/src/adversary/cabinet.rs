//! One cabinet from its fresh start: who does what next is drawn, and after each
//! call the sentences of demand 3 are looked at.

mod record;

use reference::{Common, Record, Table, LATEST_TIME};

use super::healthy::{Healthy, Pace, Standing};
use super::met::Met;
use super::Broken;
use crate::doors::Doors;
use crate::random::Random;
use crate::rounds::{Around, Mood};
use crate::tables::{table, Shape};

const SHAPES: &[(u64, Shape)] =
    &[(3, Shape::Canal), (6, Shape::Small), (3, Shape::Tight), (2, Shape::Crowd), (1, Shape::Wide)];

/// How many draws a cabinet is played for.
const DRAWS: u64 = 6000;

/// A record that was made, and which healthy nodes' reports it holds.
struct Made {
    record: Record,
    holds: Vec<usize>,
}

pub struct Cabinet<'a> {
    doors: &'a Doors,
    table: Table,
    mood: Mood,
    healthy: Vec<Healthy>,
    made: Vec<Made>,
    /// The common record after so many of the records, by the reference.
    commons: Vec<Common>,
    /// The whole order after so many of the records, from the first job of all.
    orders: Vec<Vec<u8>>,
    /// The time of the round that is reported for next.
    next: u64,
}

impl<'a> Cabinet<'a> {
    pub fn play(doors: &'a Doors, random: &mut Random, met: &mut Met) -> Result<(), Broken> {
        let mut cabinet = Cabinet::fresh(doors, random)?;
        for _ in 0..DRAWS {
            if !cabinet.anyone_active() || cabinet.next > LATEST_TIME {
                break;
            }
            let place = random.below(cabinet.healthy.len() as u64) as usize;
            cabinet.act(random, place, met)?;
            if cabinet.all_reported() {
                cabinet.make(random, met)?;
            }
        }
        Ok(())
    }

    fn fresh(doors: &'a Doors, random: &mut Random) -> Result<Cabinet<'a>, Broken> {
        let shape = random.weighted(SHAPES);
        let table = table(random, shape).check();
        let late = LATEST_TIME - random.below(4000);
        let small = random.below(50);
        let first = random.weighted(&[(12, 0), (8, small), (1, late)]);
        let honest = random.pick(&[1, 2, 3]);
        let mut numbers: Vec<usize> = (0..table.nodes()).filter(|_| random.chance(honest, 3)).collect();
        if numbers.is_empty() {
            numbers.push(random.below(table.nodes() as u64) as usize);
        }
        let mut healthy = Vec::new();
        for number in numbers {
            let pace =
                random.weighted(&[(6, Pace::Prompt), (2, Pace::Steady), (1, Pace::Slow), (2, Pace::Any)]);
            healthy.push(Healthy::fresh(doors, &table, number, pace)?);
        }
        let crowded = table.tasks().len() == Common::TASKS && random.chance(1, 2);
        Ok(Cabinet {
            doors,
            mood: Mood { first, spoilt: 0, stray: 40, crowded },
            table,
            healthy,
            made: Vec::new(),
            commons: vec![Common::fresh()],
            orders: vec![Vec::new()],
            next: first,
        })
    }

    fn anyone_active(&self) -> bool {
        self.healthy.iter().any(|own| own.standing == Standing::Active)
    }

    fn active(&self) -> impl Iterator<Item = &Healthy> {
        self.healthy.iter().filter(|own| own.standing == Standing::Active)
    }

    /// Whether everyone who counts has sent its report for the next round.
    fn all_reported(&self) -> bool {
        self.anyone_active() && self.active().all(|own| own.open() && own.closed == self.made.len())
    }

    /// The common record after so many records, to choose times about.
    fn around(&self, closed: usize) -> Around<'_> {
        Around { table: &self.table, common: &self.commons[closed], mood: self.mood }
    }

    /// One draw of one node: a step, a report, or the close of its record.
    fn act(&mut self, random: &mut Random, place: usize, met: &mut Met) -> Result<(), Broken> {
        let own = &self.healthy[place];
        match own.standing {
            Standing::LeftBehind => self.after_the_end(random, place, met),
            Standing::Lost | Standing::Silent => {
                let horizon = own.latest() + random.below(100);
                self.step(random, place, horizon.min(LATEST_TIME), met).map(|_| ())
            }
            Standing::Active if own.open() && own.closed < self.made.len() => match random.below(400) {
                0 => {
                    self.healthy[place].standing = Standing::Lost;
                    met.lost += 1;
                    Ok(())
                }
                1..=10 => self.wrong_record(random, place, met),
                11..=130 => self.close(place, met),
                _ if self.step(random, place, self.next, met)? => Ok(()),
                _ => self.close(place, met),
            },
            Standing::Active if own.open() => {
                let horizon = self.next + random.below(3 * self.table.timeout() + 60);
                self.step(random, place, horizon.max(own.latest()).min(LATEST_TIME), met).map(|_| ())
            }
            Standing::Active => match random.below(2000) {
                0 => {
                    let own = &mut self.healthy[place];
                    (own.standing, own.shared) = (Standing::Silent, 0);
                    met.silent += 1;
                    Ok(())
                }
                1..=100 => self.report(place, met),
                _ if self.step(random, place, self.next, met)? => Ok(()),
                _ => self.report(place, met),
            },
        }
    }

    /// A start or a finish at a time up to the horizon, now and then one that
    /// cannot be accepted; false where there is nothing to do until then.
    fn step(
        &mut self,
        random: &mut Random,
        place: usize,
        horizon: u64,
        met: &mut Met,
    ) -> Result<bool, Broken> {
        let own = &self.healthy[place];
        let (latest, closed, running) = (own.latest(), own.closed, own.running());
        if random.chance(1, 40) {
            self.refused_step(random, place, met)?;
            return Ok(true);
        }
        let common = &self.commons[closed];
        let position = own.progress() + 1;
        if running {
            if position > common.length() {
                return Err(self.tell(place, "runs a job that no record of its own gives".to_string()));
            }
            let job = common.task_at(position);
            let now = latest + own.pace.duration(random, self.table.tasks()[job].execution);
            if now > horizon {
                return Ok(false);
            }
            met.steps += 1;
            return match self.healthy[place].finish(self.doors, now) {
                0 => Ok(true),
                refusal => Err(self.tell(place, format!("may finish at {now} and was refused {refusal}"))),
            };
        }
        let beyond = own.open() && position > common.offset().max(own.lock());
        if position > common.length() || beyond && random.chance(9, 10) {
            return Ok(false);
        }
        let permitted = random.about(self.around(closed).bound_from(position));
        let any = random.between(latest, horizon);
        let now = random.weighted(&[(16, latest), (3, permitted), (1, any)]).min(horizon).max(latest);
        self.start(place, now, met)
    }

    /// A start; false where the node has to wait.
    fn start(&mut self, place: usize, now: u64, met: &mut Met) -> Result<bool, Broken> {
        let own = &mut self.healthy[place];
        let (position, locked) = (own.progress() + 1, own.open() && own.progress() < own.lock());
        met.steps += 1;
        match own.start(self.doors, now) {
            0 => {
                let past = position > self.commons[own.closed].offset();
                met.starts += 1;
                met.past_the_offset += u64::from(past && !own.open());
                met.by_the_lock += u64::from(past && locked);
                met.started_in_arrears += u64::from(own.closed < self.most_closed());
                self.agree(place).map(|()| true)
            }
            8 => {
                met.beyond_the_lock += 1;
                Ok(false)
            }
            9 => {
                met.waits += 1;
                Ok(false)
            }
            refusal => Err(self.tell(place, format!("was refused {refusal} for a start at {now}"))),
        }
    }

    /// A call that every node refuses as it stands.
    fn refused_step(&mut self, random: &mut Random, place: usize, met: &mut Met) -> Result<(), Broken> {
        let own = &mut self.healthy[place];
        let latest = own.latest();
        let refusal = match random.below(4) {
            0 if latest > 0 => own.start(self.doors, latest - 1),
            1 if own.running() => own.start(self.doors, latest),
            2 if !own.running() => own.finish(self.doors, latest),
            3 if own.open() => own.report(self.doors, latest).err().unwrap_or(0),
            _ => own.finish(self.doors, LATEST_TIME + 1),
        };
        met.steps += 1;
        met.refused_steps += 1;
        if refusal == 0 {
            return Err(self.tell(place, "took a step that it had to refuse".to_string()));
        }
        Ok(())
    }

    fn report(&mut self, place: usize, met: &mut Met) -> Result<(), Broken> {
        let own = &mut self.healthy[place];
        let running = own.running();
        met.steps += 1;
        match own.report(self.doors, self.next) {
            Ok(sent) => {
                met.run_ahead += u64::from(sent.run == 1 && !running);
                Ok(())
            }
            Err(refusal) => {
                Err(self.tell(place, format!("was refused {refusal} for its report at {}", self.next)))
            }
        }
    }

    /// A node that was told so is refused 5 for good.
    fn after_the_end(&mut self, random: &mut Random, place: usize, met: &mut Met) -> Result<(), Broken> {
        if random.chance(9, 10) {
            return Ok(());
        }
        let own = &mut self.healthy[place];
        let now = own.latest() + random.below(50);
        let refusal = match random.below(3) {
            0 => own.start(self.doors, now),
            1 => own.finish(self.doors, now),
            _ => own.report(self.doors, now).err().unwrap_or(0),
        };
        met.steps += 1;
        match refusal {
            3 | 5 => Ok(()),
            other => Err(self.tell(place, format!("is left behind and its step at {now} got {other}"))),
        }
    }

    /// A record that the node has to refuse: of another time, with another own
    /// entry, or with a release too many.
    fn wrong_record(&mut self, random: &mut Random, place: usize, met: &mut Met) -> Result<(), Broken> {
        let own = &mut self.healthy[place];
        let mut record = self.made[own.closed].record.clone();
        match random.below(3) {
            0 => record.r = random.pick(&[record.r + 1, record.r.wrapping_sub(1)]),
            1 => record.entries[own.number] = None,
            _ => {
                let entry = record.entries[own.number].as_mut().expect("the report that it sent");
                entry.progress += 1;
            }
        }
        met.steps += 1;
        met.refused_steps += 1;
        match own.close(self.doors, &record) {
            Err(12 | 13) => Ok(()),
            other => Err(self.tell(place, format!("was given a record not its own, and said {other:?}"))),
        }
    }

    /// The node closes its next record: no healthy report is of class 1 to 4.
    fn close(&mut self, place: usize, met: &mut Met) -> Result<(), Broken> {
        let own = &mut self.healthy[place];
        let Made { record, holds } = &self.made[own.closed];
        met.steps += 1;
        let (classes, left) = own
            .close(self.doors, record)
            .map_err(|refusal| Broken::Step(format!("node {} refused {record:?}: {refusal}", own.number)))?;
        for &number in holds {
            let class = classes[number];
            if ![0, 5].contains(&class) {
                let what = format!("healthy node {number} is of class {class} in {record:?}");
                return Err(Broken::Sentence(what));
            }
        }
        met.records += 1;
        if left != (own.progress() < self.commons[own.closed].base()) {
            return Err(self.tell(place, format!("says of being left behind: {left}")));
        }
        if left {
            own.standing = Standing::LeftBehind;
            met.left_behind += 1;
        }
        (0..self.healthy.len()).try_for_each(|place| self.agree(place))
    }

    fn tell(&self, place: usize, what: String) -> Broken {
        Broken::Step(format!("node {} {what}", self.healthy[place].number))
    }

    fn most_closed(&self) -> usize {
        self.healthy.iter().map(|own| own.closed).max().unwrap_or(0)
    }

    /// What a node has started is the first part of the order by its own records;
    /// what it started as one of the healthy ones is the first part of every order
    /// by as many records or more that one of them has closed.
    fn agree(&self, place: usize) -> Result<(), Broken> {
        let own = &self.healthy[place];
        if !self.orders[own.closed].starts_with(&own.started) {
            return Err(self.apart(own, own.closed, &own.started));
        }
        let shared = &own.started[..own.shared];
        match (own.closed..=self.most_closed()).find(|&closed| !self.orders[closed].starts_with(shared)) {
            Some(closed) => Err(self.apart(own, closed, shared)),
            None => Ok(()),
        }
    }

    fn apart(&self, own: &Healthy, closed: usize, started: &[u8]) -> Broken {
        let order = &self.orders[closed];
        let same = started.iter().zip(order).take_while(|(one, other)| one == other).count();
        Broken::Sentence(format!(
            "node {} has closed {} records and started {:?} from position {} on, \
             but the order by {closed} records has {:?} there",
            own.number,
            own.closed,
            &started[same..],
            same + 1,
            &order[same..order.len().min(same + 8)]
        ))
    }
}
