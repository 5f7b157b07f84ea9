//! "The task table": its numbers and its check, refusals 1 and 2.

use crate::common::Common;
use crate::refusal::{Refusal, TableRule};

/// One task's numbers in the paper's order C, T, D, S.
#[derive(Clone, Copy, Debug, Default, PartialEq, Eq)]
pub struct Task {
    /// C, the longest execution.
    pub execution: u64,
    /// T, the least distance between releases.
    pub distance: u64,
    /// D, the deadline.
    pub deadline: u64,
    /// S, the slack.
    pub slack: u64,
}

/// A table that has passed `Table::check`. Task 0 has the highest priority.
#[derive(Clone, Debug, PartialEq, Eq)]
pub struct Table {
    nodes: usize,
    timeout: u64,
    tasks: Vec<Task>,
}

impl Table {
    /// "1 to 15 nodes".
    pub const NODES: usize = 15;
    /// "each at most 4,294,967,295".
    pub const VALUE: u64 = 4_294_967_295;

    pub fn check(nodes: u64, timeout: u64, tasks: &[Task]) -> Result<Table, Refusal> {
        Table::check_counts(nodes, timeout, tasks.len() as u64)?;
        for task in 0..tasks.len() {
            if let Some(rule) = broken_rule(timeout, tasks, task) {
                return Err(Refusal::Table { task, rule });
            }
        }
        Ok(Table { nodes: nodes as usize, timeout, tasks: tasks.to_vec() })
    }

    /// Refusal 1, which the session program decides before it reads a task.
    pub fn check_counts(nodes: u64, timeout: u64, tasks: u64) -> Result<(), Refusal> {
        if nodes < 1 || nodes > Table::NODES as u64 {
            return Err(Refusal::NodeCount);
        }
        if timeout == 0 {
            return Err(Refusal::TimeoutZero);
        }
        if tasks < 1 || tasks > Common::TASKS as u64 {
            return Err(Refusal::TaskCount);
        }
        Ok(())
    }

    /// m, the number of nodes.
    pub fn nodes(&self) -> usize {
        self.nodes
    }

    pub fn timeout(&self) -> u64 {
        self.timeout
    }

    pub fn tasks(&self) -> &[Task] {
        &self.tasks
    }
}

/// "1 <= C <= D <= T; S + C <= D; S at least the largest C of any
/// lower-priority task; 1 <= timeout <= smallest C". The first broken task is
/// named whatever its rule, so all rules are tried at one task together.
fn broken_rule(timeout: u64, tasks: &[Task], task: usize) -> Option<TableRule> {
    let Task { execution, distance, deadline, slack } = tasks[task];
    let largest_lower = tasks[task + 1..].iter().map(|lower| lower.execution).max().unwrap_or(0);
    if [execution, distance, deadline, slack].iter().any(|&value| value > Table::VALUE) {
        return Some(TableRule::ValueTooLarge);
    }
    if execution < 1 {
        return Some(TableRule::ExecutionZero);
    }
    if execution > deadline {
        return Some(TableRule::ExecutionAboveDeadline);
    }
    if deadline > distance {
        return Some(TableRule::DeadlineAboveDistance);
    }
    if u128::from(slack) + u128::from(execution) > u128::from(deadline) {
        return Some(TableRule::SlackTooLarge);
    }
    if slack < largest_lower {
        return Some(TableRule::SlackTooSmall);
    }
    if execution < timeout {
        return Some(TableRule::TimeoutTooLong);
    }
    None
}
