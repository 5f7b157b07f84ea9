//! Scripts: a node or a station of the library is taken through calls that are
//! chosen where the rules turn, beside one of the reference. After each call
//! both have told the same, and every word of the one is the other's.

use reference::{Record, Table, LATEST_TIME};

use crate::doors::beside::Beside;
use crate::doors::layout::{COMMON_WORDS, NODE_WORDS};
use crate::doors::model::words::{entry_words, release_words, table_words};
use crate::doors::model::Held;
use crate::doors::steps::{step, Manner};
use crate::doors::wanted::doors_wanted;
use crate::doors::{Call, Doors, Lent, Room, Told};
use crate::random::Random;
use crate::rounds::Mood;
use crate::tables::{table, Numbers, Shape};

/// A call on the state, with the record that a close is given.
#[derive(Clone, Debug)]
pub struct Step {
    pub call: Call,
    pub record: Record,
}

/// A node of this number, or a station, and what is asked of it in turn.
#[derive(Clone, Debug)]
pub struct Script {
    pub table: Numbers,
    pub number: Option<u64>,
    pub steps: Vec<Step>,
}

/// Both sides of a script while it runs.
pub struct Run {
    pub held: Held,
    pub lent: Lent,
}

impl Run {
    /// A fresh state on both sides; what stood in the lent words does not matter.
    pub fn fresh(beside: &mut Beside, table: &Table, number: Option<u64>) -> Result<Run, String> {
        let (call, length) = match number {
            Some(number) => (Call::FreshNode { number }, NODE_WORDS),
            None => (Call::FreshCommon, COMMON_WORDS),
        };
        let lent = Lent {
            table: Room::holding(&table_words(table)),
            state: Room::holding(&vec![7; length]),
            ..Lent::default()
        };
        let (_, lent) = beside.call(call, &lent)?;
        Ok(Run { held: Held::fresh(table, number), lent })
    }

    /// One call on both sides. The reference's state is kept beside and never
    /// taken from words.
    pub fn step(&mut self, beside: &mut Beside, step: &Step) -> Result<Told, String> {
        self.lent.releases = Room::holding(&release_words(&step.record.releases));
        self.lent.entries = Room::holding(&entry_words(&step.record.entries));
        let (before, earlier) = (self.lent.clone(), self.held.clone());
        let told = (beside.doors)(step.call, &mut self.lent);
        let answer = self.held.tell(step.call, &step.record);
        let expected = Lent { state: Room::holding(&self.held.words()), ..before.clone() };
        beside.compare(step.call, &before, (&told, &self.lent), (&answer, &expected))?;
        beside.reached.step(&earlier, step, &told, &self.held);
        Ok(told)
    }
}

/// What a script that was played left behind: the states that it went through
/// here and there, with the last record of each.
pub type States = Vec<Lent>;

/// Plays the script of this number; an error is a difference, with the script
/// made smaller.
pub fn play(beside: &mut Beside, random: &mut Random, states: &mut States) -> Result<(), String> {
    let crowded = random.chance(1, 12);
    let shape = match crowded {
        true => Shape::Crowd,
        false => {
            random.weighted(&[(3, Shape::Canal), (6, Shape::Small), (3, Shape::Tight), (2, Shape::Wide)])
        }
    };
    let drawn = table(random, shape);
    let checked = drawn.check();
    let number = random.chance(3, 4).then(|| random.below(drawn.nodes));
    let manner = Manner { mood: mood(random, crowded), eager: random.chance(1, 3) };
    let mut script = Script { table: drawn, number, steps: Vec::new() };
    let mut run = Run::fresh(beside, &checked, number)?;
    for _ in 0..random.pick(&[10, 30, 60, 120]) {
        script.steps.push(step(random, &run.held, manner));
        let step = script.steps.last().expect("the step just chosen");
        if let Err(difference) = run.step(beside, step) {
            return Err(smaller(beside.doors, script, difference));
        }
        if random.chance(1, 150) {
            states.push(run.lent.clone());
        }
        if over(&run.held) && random.chance(1, 4) {
            break;
        }
    }
    Ok(())
}

/// Whether every further call would be refused: the time is at its end, or the
/// node is left behind.
fn over(held: &Held) -> bool {
    let late = |time: u64| time >= LATEST_TIME;
    match &held.node {
        Some(node) => late(node.latest()) || node.left_behind(&held.common),
        None => held.common.last_round().is_some_and(late),
    }
}

fn mood(random: &mut Random, crowded: bool) -> Mood {
    let small = random.below(200);
    let middle = (1 << 32) - random.below(60);
    let late = LATEST_TIME - random.below(400);
    let first = random.weighted(&[(8, 0), (4, small), (2, middle), (2, late)]);
    Mood { first, spoilt: if crowded { 20 } else { 80 }, stray: 60, crowded }
}

/// Leaves out steps as long as the two sides still differ: the difference, and the
/// steps that lead to it.
fn smaller(doors: &Doors, mut script: Script, mut difference: String) -> String {
    let checked = script.table.check();
    let mut place = script.steps.len();
    while place > 0 {
        place -= 1;
        let mut fewer = script.clone();
        fewer.steps.remove(place);
        if let Some(other) = differs(doors, &checked, &fewer) {
            (script, difference) = (fewer, other);
        }
    }
    let who = script.number.map_or("a station".to_string(), |number| format!("node {number}"));
    let mut text = format!("{difference}this is the last call of {who} under {:?}\n", script.table);
    for step in &script.steps {
        text += &match step.call {
            Call::Close { .. } | Call::CloseStation { .. } => format!("  {:?}\n", step.record),
            call => format!("  {call:?}\n"),
        };
    }
    text
}

/// How the two sides differ at the last step of a script, if they do there.
fn differs(doors: &Doors, table: &Table, script: &Script) -> Option<String> {
    let mut beside = Beside { doors, reached: doors_wanted(), calls: 0 };
    let mut run = Run::fresh(&mut beside, table, script.number).ok()?;
    let (last, before) = script.steps.split_last()?;
    for step in before {
        run.step(&mut beside, step).ok()?;
    }
    run.step(&mut beside, last).err()
}
