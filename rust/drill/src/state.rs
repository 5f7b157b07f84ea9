//! What the drill holds: the table with its tasks' names, the station, and the
//! nodes. A copy shares what has not changed since.

use std::rc::Rc;

use cabinet::{Common, Node, Open, Table};

/// The table, and the names that its tasks were given.
#[derive(Clone, Debug, PartialEq, Eq)]
pub struct Plan {
    /// The table, as the library checked it.
    pub table: Table,
    /// A name for each task that has one.
    pub names: Vec<Option<String>>,
}

/// A job by its position in the whole history, and its task.
#[derive(Clone, Copy, Debug, PartialEq, Eq)]
pub struct Job {
    /// Counted from 1.
    pub position: u64,
    /// The task's number.
    pub task: u64,
}

/// A node's place in the cabinet.
#[derive(Clone, Debug, PartialEq, Eq)]
pub struct Seat {
    /// The node's own state.
    pub node: Node,
    /// The jobs that its accepted starts named.
    pub started: Vec<Job>,
    /// The last report that it sent, kept after its round is closed: others may
    /// close the round later.
    pub sent: Option<Open>,
}

/// A cabinet at one moment.
#[derive(Clone, Debug, PartialEq, Eq)]
pub struct State {
    /// Table and names.
    pub plan: Rc<Plan>,
    /// The common record of a station that watches.
    pub station: Rc<Common>,
    /// The nodes, by number.
    pub seats: Vec<Rc<Seat>>,
}

impl State {
    /// A fresh cabinet.
    pub fn fresh(plan: Plan) -> State {
        let seat = |number| {
            let node = Node::fresh(&plan.table, number).expect("a number below the table's nodes");
            Rc::new(Seat { node, started: Vec::new(), sent: None })
        };
        let seats = (0..plan.table.nodes() as u64).map(seat).collect();
        State { plan: Rc::new(plan), station: Rc::new(Common::fresh()), seats }
    }

    /// The report that a node sent for the round at a time.
    pub fn sent(&self, node: usize, time: u64) -> Option<Open> {
        self.seats[node].sent.filter(|sent| sent.time == time)
    }

    /// Where two nodes have started different jobs at one position: the
    /// first such position, with a node and its job on either side.
    pub fn parted(&self) -> Option<[(usize, Job); 2]> {
        let longest = self.seats.iter().map(|seat| seat.started.len()).max().unwrap_or(0);
        (0..longest).find_map(|place| {
            let at = |(number, seat): (usize, &Rc<Seat>)| Some((number, *seat.started.get(place)?));
            let mut jobs = self.seats.iter().enumerate().filter_map(at);
            let first = jobs.next()?;
            jobs.find(|(_, job)| *job != first.1).map(|other| [first, other])
        })
    }
}

impl Plan {
    /// The number of the task with a name.
    pub fn named(&self, name: &str) -> Option<u64> {
        let place = self.names.iter().position(|other| other.as_deref() == Some(name));
        place.map(|place| place as u64)
    }

    fn name(&self, task: u64) -> Option<&str> {
        self.names.get(usize::try_from(task).ok()?)?.as_deref()
    }

    /// `task 2`, with its name where it has one.
    pub(crate) fn task(&self, task: u64) -> String {
        match self.name(task) {
            Some(name) => format!("task {task} {name}"),
            None => format!("task {task}"),
        }
    }

    /// The task in few letters: its name, else its number.
    pub(crate) fn short(&self, task: u64) -> String {
        self.name(task).map_or_else(|| task.to_string(), str::to_string)
    }
}
