//! A node's steps and their refusals at the edges.

mod canal;

use canal::*;
use reference::{Common, Node, Refusal, Report, Table, LATEST_TIME};

/// Node 0 of the worked canal after round 0, which it closed.
fn begun() -> (Table, Common, Node) {
    let table = canal();
    let mut common = Common::fresh();
    let mut node = Node::fresh(&table, 0).unwrap();
    assert_eq!(node.report(&table, &common, 0), Ok(Report { progress: 0, completion: 0, run: 0 }));
    node.close(&table, &mut common, &round_0()).expect("round 0");
    assert_eq!(node.latest(), 2);
    (table, common, node)
}

fn number<T: std::fmt::Debug>(reply: Result<T, Refusal>) -> u8 {
    reply.expect_err("a refusal").number()
}

#[test]
fn the_refusals_of_a_start_come_in_order() {
    let (table, common, mut node) = begun();
    let fresh = node.clone();
    assert_eq!(number(node.start(&table, &common, LATEST_TIME + 1)), 3);
    assert_eq!(number(node.start(&table, &common, u64::MAX)), 3);
    assert_eq!(number(node.start(&table, &common, 1)), 4);
    assert_eq!(node, fresh);
    assert_eq!(node.start(&table, &common, 2), Ok(1));
    assert_eq!(number(node.start(&table, &common, 2)), 6);
    let mut empty = Node::fresh(&table, 1).unwrap();
    assert_eq!(number(empty.start(&table, &Common::fresh(), LATEST_TIME)), 7);
}

#[test]
fn each_accepted_step_moves_the_clock() {
    let (table, common, mut node) = begun();
    node.start(&table, &common, 5).unwrap();
    assert_eq!(number(node.finish(&common, 4)), 4);
    node.finish(&common, 6).unwrap();
    assert_eq!(number(node.report(&table, &common, 5)), 4);
    node.report(&table, &common, 6).unwrap();
    assert_eq!((node.latest(), node.completion(), node.progress()), (6, 6, 1));
}

#[test]
fn the_refusals_of_a_finish() {
    let (table, common, mut node) = begun();
    assert_eq!(number(node.finish(&common, LATEST_TIME + 1)), 3);
    assert_eq!(number(node.finish(&common, 1)), 4);
    assert_eq!(number(node.finish(&common, 2)), 10);
    node.start(&table, &common, LATEST_TIME).unwrap();
    node.finish(&common, LATEST_TIME).unwrap();
    assert_eq!(number(node.finish(&common, LATEST_TIME)), 10);
}

#[test]
fn the_lock_permits_and_holds() {
    let (table, common, mut node) = begun();
    assert_eq!(node.report(&table, &common, 10), Ok(Report { progress: 0, completion: 0, run: 1 }));
    assert_eq!(node.round().unwrap().lock, 1);
    assert_eq!(number(node.report(&table, &common, 11)), 11);
    assert_eq!(node.start(&table, &common, 11), Ok(1));
    node.finish(&common, 12).unwrap();
    // At 12 the bound would permit position 2, yet the open round holds it.
    assert_eq!(number(node.start(&table, &common, 12)), 8);
}

#[test]
fn the_offset_permits_beyond_the_lock() {
    let (table, mut common, mut node) = begun();
    let far = record(12, &[], &[report(0, 0, 0), None, report(2, 12, 0)]);
    node.report(&table, &common, 12).map(|sent| assert_eq!(sent.run, 1)).unwrap();
    let mut far_as_sent = far.clone();
    far_as_sent.entries[0] = report(0, 0, 1);
    node.close(&table, &mut common, &far_as_sent).unwrap();
    assert_eq!((common.offset(), common.base()), (2, 0));
    node.report(&table, &common, 14).unwrap();
    assert_eq!(node.round().unwrap().lock, 1);
    for task in [1, 2] {
        assert_eq!(node.start(&table, &common, 14), Ok(task));
        node.finish(&common, 14).unwrap();
    }
    assert_eq!(number(node.start(&table, &common, 14)), 7);
}

#[test]
fn the_run_rule_is_strict_and_uses_the_projection_of_progress() {
    // Progress 1: projection(1) is 22, timeout 2, position 2 within the bound from 12 on.
    for (r, run) in [(11, 0), (12, 0), (20, 0), (21, 1), (30, 1)] {
        let (table, common, mut node) = begun();
        node.start(&table, &common, 2).unwrap();
        node.finish(&common, 3).unwrap();
        assert_eq!(node.report(&table, &common, r).unwrap().run, run, "at {r}");
    }
}

#[test]
fn the_run_rule_needs_a_position_within_offset_or_bound() {
    // Position 1 is projected at 17; task 0 allows r + 15.
    let tasks = [task(5, 100, 100, 15), task(15, 200, 200, 0)];
    let table = Table::check(1, 2, &tasks).unwrap();
    let mut common = Common::fresh();
    closed(&table, &mut common, &record(0, &[(1, 0)], &[report(0, 0, 0)]));
    assert_eq!(common.projection(&table, 1), 17);
    for (r, run) in [(1, 0), (2, 1)] {
        let mut node = Node::fresh(&table, 0).unwrap();
        assert_eq!(node.report(&table, &common, r).unwrap().run, run, "at {r}");
    }
}

#[test]
fn a_running_job_is_reported_whatever_the_bound_says() {
    let (table, common, mut node) = begun();
    node.start(&table, &common, 2).unwrap();
    assert_eq!(node.report(&table, &common, 3).unwrap().run, 1);
}

#[test]
fn close_needs_its_round() {
    let (table, mut common, mut node) = begun();
    assert_eq!(number(node.close(&table, &mut common, &round_10())), 12);
    node.report(&table, &common, 10).unwrap();
    let before = (node.clone(), common.clone());
    for r in [9, 11, LATEST_TIME + 1, u64::MAX] {
        assert_eq!(number(node.close(&table, &mut common, &record(r, &[], &[None; 3]))), 12);
    }
    assert_eq!((node, common), before);
}

#[test]
fn close_needs_its_own_entry_as_sent() {
    let (table, common, mut node) = begun();
    let sent = node.report(&table, &common, 10).unwrap();
    let own = Some(sent);
    let close = |entries: &[Option<Report>]| {
        let (mut node, mut common) = (node.clone(), common.clone());
        node.close(&table, &mut common, &record(10, &[(9, 9)], entries)).unwrap_err().number()
    };
    assert_eq!(close(&[]), 13);
    assert_eq!(close(&[None; 3]), 13);
    for changed in [report(1, 0, 1), report(0, 1, 1), report(0, 0, 0)] {
        assert_eq!(close(&[changed, None, None]), 13);
    }
    assert_eq!(close(&[None, own, own]), 13);
    assert_eq!(close(&[own]), 15, "another length with the own entry right");
    let mut last = Node::fresh(&table, 2).unwrap();
    let own = Some(last.report(&table, &common, 10).unwrap());
    let short = record(10, &[], &[own, own]);
    assert_eq!(number(last.close(&table, &mut common.clone(), &short)), 13);
}

#[test]
fn a_report_is_compared_as_sent_and_not_as_the_node_stands_now() {
    let (table, mut common, mut node) = begun();
    node.report(&table, &common, 10).unwrap();
    node.start(&table, &common, 11).unwrap();
    node.finish(&common, 12).unwrap();
    let mut other = node.clone();
    let now = record(10, &[], &[report(1, 12, 0), None, None]);
    assert_eq!(number(other.close(&table, &mut common.clone(), &now)), 13);
    node.close(&table, &mut common, &record(10, &[], &[report(0, 0, 1), None, None])).unwrap();
}

#[test]
fn the_clock_after_a_close() {
    let (table, common, node) = begun();
    for (started, latest) in [(None, 12), (Some(11), 12), (Some(30), 30)] {
        let (mut node, mut common) = (node.clone(), common.clone());
        let own = Some(node.report(&table, &common, 10).unwrap());
        if let Some(now) = started {
            node.start(&table, &common, now).unwrap();
        }
        node.close(&table, &mut common, &record(10, &[], &[own, None, None])).unwrap();
        assert_eq!((node.latest(), node.round()), (latest, None));
    }
}

#[test]
fn a_refused_record_leaves_the_round_open_for_another() {
    let (table, mut common, mut node) = begun();
    let own = Some(node.report(&table, &common, 10).unwrap());
    let before = (node.clone(), common.clone());
    assert_eq!(number(node.close(&table, &mut common, &record(10, &[(1, 0)], &[own, None, None]))), 16);
    assert_eq!((node.clone(), common.clone()), before);
    node.close(&table, &mut common, &record(10, &[], &[own, None, None])).unwrap();
}

#[test]
fn left_behind_for_good() {
    let (table, mut common, mut node) = begun();
    node.start(&table, &common, 2).unwrap();
    let own = Some(node.report(&table, &common, 40).unwrap());
    assert_eq!(own, report(0, 0, 1));
    // Its own report is class 0 here, so the base stays; later it is late.
    let first = record(40, &[], &[own, report(1, 22, 0), None]);
    assert!(!node.close(&table, &mut common, &first).unwrap().left_behind);
    assert_eq!(common.base(), 0);
    let own = Some(node.report(&table, &common, 60).unwrap());
    let second = record(60, &[], &[own, report(1, 22, 0), None]);
    let told = node.close(&table, &mut common, &second).unwrap();
    assert_eq!((told.reply.classes[0], told.left_behind, common.base()), (5, true, 1));
    assert_eq!(number(node.start(&table, &common, LATEST_TIME + 1)), 3);
    assert_eq!(number(node.start(&table, &common, 3)), 4);
    assert_eq!(number(node.start(&table, &common, 70)), 5);
    assert_eq!(number(node.finish(&common, 70)), 5);
    assert_eq!(number(node.report(&table, &common, 70)), 5);
    assert_eq!(number(node.close(&table, &mut common, &record(70, &[], &[]))), 5);
}

#[test]
fn a_start_names_the_lowest_task_that_breaks_the_bound() {
    let tasks = [task(2, 99, 99, 30), task(2, 99, 99, 20), task(20, 99, 99, 0)];
    let table = Table::check(1, 2, &tasks).unwrap();
    let mut common = Common::fresh();
    closed(&table, &mut common, &record(0, &[(2, 0)], &[report(0, 0, 0)]));
    closed(&table, &mut common, &record(2, &[(0, 0)], &[None]));
    assert_eq!(common.jobs(), [0, 2]);
    let mut node = Node::fresh(&table, 0).unwrap();
    node.start(&table, &common, 2).unwrap();
    node.finish(&common, 2).unwrap();
    // Position 2 is projected at 24; task 0 allows 101 + 30, task 1 allows now + 20.
    assert_eq!(node.start(&table, &common, 3), Err(Refusal::BoundBroken { task: 1 }));
    assert_eq!(node.start(&table, &common, 4), Ok(2));
}
