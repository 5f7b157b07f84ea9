//! The worked canal of document 01 with three nodes and a station that watches:
//! examples/canal.c again, in Rust. Nodes 0 and 1 send what the library tells
//! them. Node 2 claims in round 10 what it may not have done: its own library
//! refuses that record, and it falls silent.

use cabinet::{Common, Entry, Node, Record, Refusal, Release, Report, Table, Task};

struct Cabinet {
    table: Table,
    station: Common,
    nodes: Vec<Node>,
    /// The tasks that each node was told to start.
    started: Vec<Vec<u64>>,
}

impl Cabinet {
    fn new(table: Table) -> Result<Cabinet, Refusal> {
        let nodes: Result<Vec<Node>, Refusal> = (0..3).map(|number| Node::fresh(&table, number)).collect();
        Ok(Cabinet { table, station: Common::fresh(), nodes: nodes?, started: vec![Vec::new(); 3] })
    }

    fn start(&mut self, node: usize, now: u64) -> Result<(), Refusal> {
        let task = self.nodes[node].start(&self.table, now)?;
        self.started[node].push(task);
        Ok(())
    }

    fn finish(&mut self, node: usize, now: u64) -> Result<(), Refusal> {
        self.nodes[node].finish(&self.table, now)
    }

    fn report(&mut self, node: usize, r: u64) -> Result<Entry, Refusal> {
        self.nodes[node].report(&self.table, r).map(Some)
    }

    /// The station closes the record and prints its line; then every node that
    /// reported for it closes it, and has the station's common record.
    fn close(&mut self, record: &Record) -> Result<(), Refusal> {
        let told = self.station.close(&self.table, record)?;
        let common = &self.station;
        print!("round {} ipo {} base {}", record.time, common.offset(), common.base());
        print!(" length {} toc {} nodes ", common.length(), common.next_start());
        for class in &told.classes[..self.table.nodes()] {
            print!("{class}");
        }
        println!();
        for node in &mut self.nodes {
            if node.open_round().is_some_and(|round| round.time == record.time) {
                match node.close(&self.table, record) {
                    Ok(_) => assert_eq!(node.common(), self.station, "one common record for all"),
                    Err(refusal) => println!("node {} refused {}", node.number(), refusal.number()),
                }
            }
        }
        Ok(())
    }
}

fn record(time: u64, releases: &[(u64, u64)], entries: [Entry; 3]) -> Record {
    let releases = releases.iter().map(|&(task, delay)| Release { task, delay }).collect();
    Record { time, releases, entries: entries.to_vec() }
}

fn main() -> Result<(), Refusal> {
    let tasks = [
        Task { c: 10, t: 100, d: 100, s: 40 },
        Task { c: 20, t: 200, d: 200, s: 50 },
        Task { c: 30, t: 400, d: 400, s: 40 },
    ];
    let mut canal = Cabinet::new(Table::checked(3, 2, &tasks)?)?;

    let entries = [canal.report(0, 0)?, canal.report(1, 0)?, canal.report(2, 0)?];
    canal.close(&record(0, &[(1, 0), (2, 1)], entries))?;

    canal.start(0, 2)?;
    canal.start(1, 5)?;
    canal.finish(0, 8)?;
    let mut entries = [canal.report(0, 10)?, canal.report(1, 10)?, canal.report(2, 10)?];
    // The lie: both jobs finished, the second over the bound.
    entries[2] = Some(Report { progress: 2, completed: 10, run: 0 });
    canal.close(&record(10, &[(0, 0)], entries))?;

    canal.start(0, 12)?;
    canal.finish(0, 20)?;
    canal.start(0, 20)?;
    canal.finish(1, 25)?;
    canal.start(1, 25)?;
    canal.finish(1, 35)?;
    canal.start(1, 35)?;
    canal.finish(0, 45)?;
    canal.finish(1, 60)?;
    let entries = [canal.report(0, 120)?, canal.report(1, 120)?, None];
    canal.close(&record(120, &[(0, 0)], entries))?;

    print!("order");
    for (position, task) in (canal.station.base() + 1..).zip(canal.station.order()) {
        print!(" {position}:{task}");
    }
    println!();
    for (node, tasks) in canal.started.iter().enumerate().take(2) {
        print!("node {node} started");
        for task in tasks {
            print!(" {task}");
        }
        println!();
    }
    Ok(())
}
