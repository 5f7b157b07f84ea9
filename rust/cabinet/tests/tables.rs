//! The table's check, and what a table shows of itself.

mod canal;

use cabinet::layout::{TABLE_C, TABLE_WORDS};
use cabinet::{Table, Task};
use canal::*;

fn refusal(nodes: u64, timeout: u64, tasks: &[Task]) -> (u64, Option<u64>) {
    let refusal = Table::checked(nodes, timeout, tasks).expect_err("a refusal");
    (refusal.number(), refusal.task())
}

#[test]
fn the_worked_canals_table() {
    let table = canal();
    assert_eq!((table.nodes(), table.timeout(), table.task_count()), (3, 2, 3));
    assert_eq!(table.tasks(), canal_tasks());
}

#[test]
fn counts_out_of_range_are_1() {
    let tasks = canal_tasks();
    assert_eq!(refusal(0, 2, &tasks), (1, None));
    assert_eq!(refusal(16, 2, &tasks), (1, None));
    assert_eq!(refusal(3, 0, &tasks), (1, None));
    assert_eq!(refusal(3, 2, &[]), (1, None));
}

/// 64 tasks fill the words; the 65th has no place there and is refused, not cut.
#[test]
fn a_65th_task_is_1() {
    let tasks = [task(1, 9, 9, 1); 65];
    assert_eq!(Table::checked(3, 1, &tasks[..64]).map(|table| table.tasks().len()), Ok(64));
    assert_eq!(refusal(3, 1, &tasks), (1, None));
}

#[test]
fn a_broken_rule_is_2_with_the_first_task() {
    let mut tasks = canal_tasks();
    tasks[2].c = 41;
    assert_eq!(refusal(3, 2, &tasks), (2, Some(0)), "task 0 has slack 40");
    let mut tasks = canal_tasks();
    tasks[1].d = 201;
    assert_eq!(refusal(3, 2, &tasks), (2, Some(1)));
    assert_eq!(refusal(3, 11, &canal_tasks()), (2, Some(0)));
    let first_shorter = [task(20, 200, 200, 50), task(10, 100, 100, 40)];
    assert_eq!(refusal(3, 11, &first_shorter), (2, Some(1)), "the first task with C < timeout");
}

#[test]
fn a_stored_table_is_taken_again() {
    let table = canal();
    assert_eq!(Table::from_words(table.words()), Ok(table.clone()));
    let mut words = *table.words();
    words[TABLE_C + 3] = u64::MAX;
    assert_eq!(Table::from_words(&words), Ok(table.clone()), "nothing is asked of the places past the tasks");
    words[TABLE_C] = 0;
    let refusal = Table::from_words(&words).unwrap_err();
    assert_eq!((refusal.number(), refusal.task()), (2, Some(0)));
    for length in [0, TABLE_WORDS - 1] {
        assert_eq!(number(Table::from_words(&words[..length])), 100);
    }
}
