//! Refusals 1 and 2 at their edges, with the task that 2 names.

mod canal;

use canal::*;
use reference::{Node, Table, Task};

fn refusal(nodes: u64, timeout: u64, tasks: &[Task]) -> (u8, Option<usize>) {
    let refusal = Table::check(nodes, timeout, tasks).expect_err("a refusal");
    (refusal.number(), refusal.task())
}

#[test]
fn counts_and_timeout() {
    let tasks = canal_tasks();
    let many = |count| vec![task(1, 9, 9, 1); count];
    assert_eq!(refusal(0, 2, &tasks), (1, None));
    assert_eq!(refusal(16, 2, &tasks), (1, None));
    assert_eq!(refusal(u64::MAX, 2, &tasks), (1, None));
    assert_eq!(refusal(3, 0, &tasks), (1, None));
    assert_eq!(refusal(3, 1, &[]), (1, None));
    assert_eq!(refusal(3, 1, &many(65)), (1, None));
    assert!(Table::check(1, 1, &many(1)).is_ok());
    assert!(Table::check(15, 1, &many(64)).is_ok());
}

#[test]
fn a_node_number_is_below_m() {
    let table = canal();
    assert!(Node::fresh(&table, 2).is_ok());
    assert_eq!(Node::fresh(&table, 3).unwrap_err().number(), 1);
    assert_eq!(Node::fresh(&table, u64::MAX).unwrap_err().number(), 1);
}

#[test]
fn each_rule_at_its_edge() {
    let fits = |tasks: &[Task]| Table::check(1, 1, tasks).is_ok();
    assert!(fits(&[task(1, 1, 1, 0)]));
    assert_eq!(refusal(1, 1, &[task(0, 1, 1, 0)]), (2, Some(0)));
    assert_eq!(refusal(1, 1, &[task(2, 2, 1, 0)]), (2, Some(0)));
    assert!(fits(&[task(1, 2, 2, 0)]));
    assert_eq!(refusal(1, 1, &[task(1, 2, 3, 0)]), (2, Some(0)));
    assert!(fits(&[task(1, 3, 3, 2)]));
    assert_eq!(refusal(1, 1, &[task(1, 3, 3, 3)]), (2, Some(0)));
}

#[test]
fn a_tasks_own_execution_is_not_counted_in_its_slack() {
    assert!(Table::check(1, 1, &[task(10, 10, 10, 0)]).is_ok());
    assert!(Table::check(1, 1, &[task(10, 15, 15, 5), task(5, 9, 9, 0)]).is_ok());
    assert_eq!(refusal(1, 1, &[task(10, 15, 15, 4), task(5, 9, 9, 0)]), (2, Some(0)));
}

#[test]
fn the_slack_rule_looks_at_every_lower_task() {
    let lower = [task(2, 9, 9, 7), task(3, 9, 9, 5)];
    assert!(Table::check(1, 1, &[task(1, 9, 9, 3), lower[0], lower[1]]).is_ok());
    assert_eq!(refusal(1, 1, &[task(1, 9, 9, 2), lower[0], lower[1]]), (2, Some(0)));
}

#[test]
fn the_timeout_names_the_first_task_that_is_shorter() {
    let tasks = [task(10, 99, 99, 40), task(4, 99, 99, 9), task(3, 99, 99, 0)];
    assert!(Table::check(1, 3, &tasks).is_ok());
    assert_eq!(refusal(1, 4, &tasks), (2, Some(2)));
    assert_eq!(refusal(1, 5, &tasks), (2, Some(1)));
    assert_eq!(refusal(1, u64::MAX, &tasks), (2, Some(0)));
}

#[test]
fn the_first_broken_task_is_named_whatever_its_rule() {
    let too_short = task(1, 9, 9, 0);
    let broken = task(5, 4, 4, 0);
    assert_eq!(refusal(1, 2, &[task(5, 99, 99, 5), too_short, broken]), (2, Some(1)));
    assert_eq!(refusal(1, 2, &[task(5, 99, 99, 5), broken, too_short]), (2, Some(1)));
}

#[test]
fn values_at_and_past_32_bits() {
    let most = Table::VALUE;
    assert!(Table::check(1, most, &[task(most, most, most, 0)]).is_ok());
    for place in 0..4 {
        for value in [most + 1, 1 << 63, u64::MAX] {
            let mut values = [1, most, most, 1];
            values[place] = value;
            let [execution, distance, deadline, slack] = values;
            assert_eq!(refusal(1, 1, &[task(execution, distance, deadline, slack)]), (2, Some(0)));
        }
    }
}

#[test]
fn no_sum_wraps() {
    let wide = u64::MAX;
    assert_eq!(refusal(1, 1, &[task(wide, wide, wide, wide)]), (2, Some(0)));
    assert_eq!(refusal(1, 1, &[task(1, 1, 1, wide)]), (2, Some(0)));
    // A lower task's execution that is no 32-bit value breaks the slack rule above it first.
    assert_eq!(refusal(1, 1, &[task(1, 9, 9, 8), task(wide, wide, wide, 0)]), (2, Some(0)));
}
