//! The worked canal run by nodes, and each refusal that a node gives.

mod canal;

use cabinet::{Node, Open, Refusal, Table};
use canal::*;

/// Starts and finishes jobs, each (start, finish), and names their tasks.
fn run(table: &Table, node: &mut Node, times: &[(u64, u64)]) -> Vec<u64> {
    let mut tasks = Vec::new();
    for &(start, finish) in times {
        tasks.push(node.start(table, start).unwrap_or_else(|refusal| panic!("start {start}: {refusal}")));
        node.finish(table, finish).unwrap_or_else(|refusal| panic!("finish {finish}: {refusal}"));
    }
    tasks
}

/// Nodes 0 and 1 send what the library tells them, node 2 claims in round 10
/// what it may not have done, and falls silent.
#[test]
fn the_worked_canal_through_nodes() {
    let table = canal();
    let mut nodes = [0, 1].map(|number| Node::fresh(&table, number).unwrap());
    let mut liar = Node::fresh(&table, 2).unwrap();

    for node in nodes.iter_mut().chain([&mut liar]) {
        assert_eq!(node.report(&table, 0), Ok(sent(0, 0, 0)));
        let told = node.close(&table, &round_0()).unwrap();
        assert_eq!(line(&table, 0, &node.common(), &told), LINES[0]);
        assert_eq!((node.latest(), node.open_round()), (2, None));
    }

    assert_eq!(run(&table, &mut nodes[0], &[(2, 8)]), [1]);
    assert_eq!(nodes[1].start(&table, 5), Ok(1));
    assert_eq!(nodes[0].report(&table, 10), Ok(sent(1, 8, 0)));
    assert_eq!(nodes[1].report(&table, 10), Ok(sent(0, 0, 1)));
    assert_eq!(liar.report(&table, 10), Ok(sent(0, 0, 1)));
    for node in &mut nodes {
        let told = node.close(&table, &round_10()).unwrap();
        assert_eq!(line(&table, 10, &node.common(), &told), LINES[1]);
        assert!(!told.left_behind);
    }
    assert_eq!(number(liar.close(&table, &round_10())), 13);

    assert_eq!(run(&table, &mut nodes[0], &[(12, 20), (20, 45)]), [0, 2]);
    assert_eq!(nodes[1].finish(&table, 25), Ok(()));
    assert_eq!(run(&table, &mut nodes[1], &[(25, 35), (35, 60)]), [0, 2]);
    assert_eq!(nodes[0].report(&table, 120), Ok(sent(3, 45, 0)));
    assert_eq!(nodes[1].report(&table, 120), Ok(sent(3, 60, 0)));
    for node in &mut nodes {
        let told = node.close(&table, &round_120()).unwrap();
        assert_eq!(line(&table, 120, &node.common(), &told), LINES[2]);
        assert!(!node.left_behind(), "its progress is the base");
        assert_eq!(node.common(), after(&table, &[round_0(), round_10(), round_120()]));
        assert_eq!(run(&table, node, &[(122, 130)]), [0]);
    }
}

/// A node with progress 1 after round 0, idle since 11.
fn finished_one(table: &Table) -> Node {
    let mut node = begun(table, 0);
    assert_eq!(run(table, &mut node, &[(2, 11)]), [1]);
    node
}

#[test]
fn p2_position_2_at_11_is_refused() {
    let table = canal();
    let refusal = finished_one(&table).start(&table, 11).unwrap_err();
    assert_eq!((refusal.number(), refusal.task()), (9, Some(0)));
    assert_eq!(refusal.to_string(), "refused 9: the bound is broken (task 0)");
}

#[test]
fn p3_position_2_at_12_is_permitted() {
    let table = canal();
    assert_eq!(finished_one(&table).start(&table, 12), Ok(2));
}

#[test]
fn the_readers_follow_each_step() {
    let table = canal();
    let mut node = begun(&table, 1);
    assert_eq!((node.number(), node.progress(), node.completed(), node.running()), (1, 0, 0, false));
    node.start(&table, 5).unwrap();
    assert_eq!((node.progress(), node.completed(), node.running(), node.latest()), (0, 0, true, 5));
    node.finish(&table, 7).unwrap();
    assert_eq!((node.progress(), node.completed(), node.running(), node.latest()), (1, 7, false, 7));
    node.report(&table, 30).unwrap();
    assert_eq!(node.open_round(), Some(Open { time: 30, sent: sent(1, 7, 1) }));
    assert_eq!((node.latest(), node.left_behind()), (30, false));
}

/// The numbers that a step gives at a node that must stay as it was.
fn refused_step<T: std::fmt::Debug>(node: &Node, step: impl FnOnce(&mut Node) -> Result<T, Refusal>) -> u64 {
    let mut changed = node.clone();
    let refusal = step(&mut changed).expect_err("a refusal");
    assert_eq!(&changed, node, "a refusal changes nothing");
    refusal.number()
}

#[test]
fn the_refusals_of_a_start() {
    let table = canal();
    let mut node = begun(&table, 0);
    assert_eq!(refused_step(&node, |node| node.start(&table, 1 << 48)), 3);
    assert_eq!(refused_step(&node, |node| node.start(&table, 1)), 4);
    node.start(&table, 2).unwrap();
    assert_eq!(refused_step(&node, |node| node.start(&table, 2)), 6);
    let fresh = Node::fresh(&table, 1).unwrap();
    assert_eq!(refused_step(&fresh, |node| node.start(&table, (1 << 48) - 1)), 7);
    node.finish(&table, 11).unwrap();
    assert_eq!(refused_step(&node, |node| node.start(&table, 11)), 9);
    // At 12 the bound would permit position 2, yet the open round holds it.
    assert_eq!(node.report(&table, 12), Ok(sent(1, 11, 0)));
    assert_eq!(refused_step(&node, |node| node.start(&table, 12)), 8);
}

#[test]
fn the_refusals_of_a_finish() {
    let table = canal();
    let mut node = begun(&table, 0);
    assert_eq!(refused_step(&node, |node| node.finish(&table, 2)), 10);
    node.start(&table, 6).unwrap();
    assert_eq!(refused_step(&node, |node| node.finish(&table, 1 << 48)), 3);
    assert_eq!(refused_step(&node, |node| node.finish(&table, 5)), 4);
}

#[test]
fn the_refusals_of_a_report() {
    let table = canal();
    let mut node = begun(&table, 0);
    assert_eq!(refused_step(&node, |node| node.report(&table, 1 << 48)), 3);
    assert_eq!(refused_step(&node, |node| node.report(&table, 1)), 4);
    node.report(&table, 10).unwrap();
    assert_eq!(refused_step(&node, |node| node.report(&table, 11)), 11);
}

#[test]
fn the_refusals_of_a_close() {
    let table = canal();
    let mut node = begun(&table, 0);
    assert_eq!(refused_step(&node, |node| node.close(&table, &round_10())), 12);
    let own = Some(node.report(&table, 10).unwrap());
    let close = |time, releases: &[(u64, u64)], entries: &[cabinet::Entry]| {
        refused_step(&node, |node| node.close(&table, &record(time, releases, entries)))
    };
    assert_eq!(close(11, &[], &[own, None, None]), 12);
    assert_eq!(close(1 << 48, &[], &[own, None, None]), 12);
    assert_eq!(close(10, &[], &[]), 13);
    assert_eq!(close(10, &[], &[None, own, own]), 13);
    assert_eq!(close(10, &[], &[entry(0, 0, 0), None, None]), 13);
    assert_eq!(close(10, &[], &[own]), 15);
    assert_eq!(close(10, &[(1, 0)], &[own, None, None]), 16);
    // The round is still open for another record.
    assert!(node.close(&table, &record(10, &[], &[own, None, None])).is_ok());
}

#[test]
fn left_behind_is_told_once_and_then_refused() {
    let table = canal();
    let mut node = begun(&table, 0);
    node.start(&table, 2).unwrap();
    let own = Some(node.report(&table, 40).unwrap());
    let told = node.close(&table, &record(40, &[], &[own, entry(1, 22, 0), None])).unwrap();
    assert_eq!((told.classes[0], told.back_runner, told.left_behind), (0, Some(0), false));
    let own = Some(node.report(&table, 60).unwrap());
    let told = node.close(&table, &record(60, &[], &[own, entry(1, 22, 0), None])).unwrap();
    assert_eq!((told.classes[0], told.back_runner, told.left_behind), (5, Some(1), true));
    assert!(node.left_behind());
    assert_eq!(refused_step(&node, |node| node.start(&table, 70)), 5);
    assert_eq!(refused_step(&node, |node| node.finish(&table, 70)), 5);
    assert_eq!(refused_step(&node, |node| node.report(&table, 70)), 5);
    assert_eq!(refused_step(&node, |node| node.close(&table, &record(70, &[], &[]))), 5);
    // Such a node is still one that the library wrote.
    assert_eq!(Node::from_words(&table, node.words()), Ok(node.clone()));
}

#[test]
fn a_node_number_must_be_below_m() {
    let table = canal();
    assert_eq!(Node::fresh(&table, 2).map(|node| node.number()), Ok(2));
    assert_eq!(number(Node::fresh(&table, 3)), 1);
    assert_eq!(number(Node::fresh(&table, u64::MAX)), 1);
}
