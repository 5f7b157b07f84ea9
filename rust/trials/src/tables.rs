//! Task tables for the trials: good ones of several shapes, and ones that break
//! a rule by the least that it can be broken by.

use reference::{Table, Task};

use crate::random::Random;

/// The numbers of a table as a session writes them, good or not.
#[derive(Clone, Debug)]
pub struct Numbers {
    pub nodes: u64,
    pub timeout: u64,
    pub tasks: Vec<Task>,
}

impl Numbers {
    pub fn check(&self) -> Table {
        Table::check(self.nodes, self.timeout, &self.tasks)
            .unwrap_or_else(|refusal| panic!("{self:?} was refused: {refusal:?}"))
    }

    /// As written: m, timeout, count, four numbers a task.
    pub fn written(&self) -> Vec<u64> {
        let mut numbers = vec![self.nodes, self.timeout, self.tasks.len() as u64];
        for task in &self.tasks {
            numbers.extend([task.execution, task.distance, task.deadline, task.slack]);
        }
        numbers
    }
}

#[derive(Clone, Copy, Debug)]
pub enum Shape {
    /// The worked canal.
    Canal,
    /// A few tasks with small numbers and room between the rules.
    Small,
    /// Every rule met with nothing to spare.
    Tight,
    /// 64 short tasks that come back soon, so that the order fills.
    Crowd,
    /// Numbers up to 2^32 - 1.
    Wide,
}

pub fn table(random: &mut Random, shape: Shape) -> Numbers {
    let timeout = match shape {
        Shape::Canal => 2,
        Shape::Small => random.between(1, 5),
        Shape::Tight => random.between(1, 3),
        Shape::Crowd => 1,
        Shape::Wide => random.pick(&[1, 1000, 1 << 20]),
    };
    let tasks = match shape {
        Shape::Canal => canal(),
        Shape::Crowd => downwards(random, shape, timeout, 64),
        Shape::Small | Shape::Tight | Shape::Wide => {
            let count = random.weighted(&[(2, 1), (4, 2), (4, 3), (3, 4), (2, 6), (1, 64)]);
            downwards(random, shape, timeout, count)
        }
    };
    Numbers { nodes: random.weighted(&[(3, 1), (2, 2), (5, 3), (2, 4), (2, 7), (3, 15)]), timeout, tasks }
}

fn canal() -> Vec<Task> {
    let task = |execution, distance, deadline, slack| Task { execution, distance, deadline, slack };
    vec![task(10, 100, 100, 40), task(20, 200, 200, 50), task(30, 400, 400, 40)]
}

/// Makes the tasks from the lowest priority up, since a slack must be at least
/// the largest execution below it.
fn downwards(random: &mut Random, shape: Shape, timeout: u64, count: usize) -> Vec<Task> {
    let mut tasks = Vec::new();
    let mut largest = 0;
    for _ in 0..count {
        let spare = |random: &mut Random, room: u64| match shape {
            Shape::Tight => 0,
            Shape::Crowd => random.below(3),
            Shape::Wide => random.pick(&[0, 1, room << 20]),
            Shape::Small | Shape::Canal => random.below(room),
        };
        let execution = timeout + spare(random, 12);
        let slack = largest + spare(random, 20);
        let deadline = execution + slack + spare(random, 10);
        let distance = match shape {
            Shape::Wide if random.chance(1, 3) => Table::VALUE,
            _ => deadline + spare(random, 30),
        };
        largest = largest.max(execution);
        tasks.insert(0, Task { execution, distance, deadline, slack });
    }
    tasks
}

/// Breaks a good table in one way. It may come out good where the way asks for
/// a second task and there is none.
pub fn broken(random: &mut Random, mut numbers: Numbers) -> Numbers {
    match random.below(7) {
        0 => numbers.nodes = random.pick(&[0, 16, 17, 255, 256, (1 << 63) - 1]),
        1 => numbers.timeout = 0,
        2 => numbers.tasks.clear(),
        3 => {
            let last = *numbers.tasks.last().expect("a task");
            numbers.tasks.resize(random.pick(&[65, 65, 66, 130]), last);
        }
        _ => {
            let place = random.below(numbers.tasks.len() as u64) as usize;
            break_task(random, &mut numbers, place);
        }
    }
    numbers
}

fn break_task(random: &mut Random, numbers: &mut Numbers, place: usize) {
    let lower = numbers.tasks[place + 1..].iter().map(|task| task.execution).max();
    let task = &mut numbers.tasks[place];
    match random.below(8) {
        0 => task.execution = 0,
        1 => task.deadline = task.execution - 1,
        2 => task.distance = task.deadline - 1,
        3 => task.slack = task.deadline - task.execution + 1,
        4 => task.slack = lower.map_or(task.slack, |lower| lower - 1),
        5 => numbers.timeout = task.execution + random.pick(&[1, 1, 1 << 32, 1 << 62]),
        6 => task.distance = random.pick(&[Table::VALUE + 1, 1 << 48, (1 << 63) - 1]),
        _ => {
            let value = random.pick(&[Table::VALUE, Table::VALUE + 1, (1 << 63) - 1]);
            *random.pick_field(task) = value;
        }
    }
}

impl Random {
    fn pick_field<'a>(&mut self, task: &'a mut Task) -> &'a mut u64 {
        match self.below(4) {
            0 => &mut task.execution,
            1 => &mut task.distance,
            2 => &mut task.deadline,
            _ => &mut task.slack,
        }
    }
}
