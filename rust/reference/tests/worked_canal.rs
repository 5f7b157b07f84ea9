//! Document 01's worked canal: its printed lines, and P1 to P12.

mod canal;

use canal::*;
use reference::session::run_bytes;
use reference::written::{number_from, push_number};
use reference::Node;

const NUMBERS: &[u64] = &[
    3, 2, 3, 10, 100, 100, 40, 20, 200, 200, 50, 30, 400, 400, 40, //
    0, 2, 1, 0, 2, 1, 3, 1, 0, 0, 0, 1, 0, 0, 0, 1, 0, 0, 0, //
    10, 1, 0, 0, 3, 1, 1, 8, 0, 1, 0, 0, 1, 1, 2, 10, 0, //
    120, 1, 0, 0, 3, 1, 3, 45, 0, 1, 3, 60, 0, 0,
];

fn bytes(numbers: &[u64]) -> Vec<u8> {
    let mut bytes = Vec::new();
    for &number in numbers {
        push_number(number, &mut bytes).expect("a number below 2^63");
    }
    bytes
}

#[test]
fn printed_lines() {
    let printed = String::from_utf8(run_bytes(&bytes(NUMBERS))).unwrap();
    assert_eq!(
        printed,
        "round 0 ipo 0 base 0 length 2 toc 2 nodes 000\n\
         round 10 ipo 1 base 0 length 3 toc 2 nodes 004\n\
         round 120 ipo 3 base 3 length 4 toc 122 nodes 001\n\
         order 4:0\n"
    );
}

#[test]
fn p1_projection_after_round_0() {
    let table = canal();
    assert_eq!(after(&table, &[round_0()]).projection(&table, 2), 52);
}

/// A node with progress 1 after round 0, idle since 11.
fn finished_one() -> (reference::Table, reference::Common, Node) {
    let table = canal();
    let common = after(&table, &[round_0()]);
    let mut node = Node::fresh(&table, 0).unwrap();
    assert_eq!(node.start(&table, &common, 2), Ok(1));
    assert_eq!(node.finish(&common, 11), Ok(()));
    (table, common, node)
}

#[test]
fn p2_position_2_at_11_is_refused() {
    let (table, common, mut node) = finished_one();
    let refusal = node.start(&table, &common, 11).unwrap_err();
    assert_eq!((refusal.number(), refusal.task()), (9, Some(0)));
}

#[test]
fn p3_position_2_at_12_is_permitted() {
    let (table, common, mut node) = finished_one();
    assert_eq!(node.start(&table, &common, 12), Ok(2));
}

#[test]
fn p4_round_10_gives_order_1_0_2() {
    let table = canal();
    assert_eq!(after(&table, &[round_0(), round_10()]).jobs(), [1, 0, 2]);
}

#[test]
fn p5_round_12_gives_order_1_2_0() {
    let table = canal();
    let mut common = after(&table, &[round_0()]);
    let round = record(12, &[(0, 0)], &[report(1, 8, 0), report(0, 0, 1), report(2, 12, 0)]);
    assert_eq!(closed(&table, &mut common, &round).classes[2], 0);
    assert_eq!(common.jobs(), [1, 2, 0]);
}

#[test]
fn p6_and_p7_round_120_at_and_past_the_projection() {
    let table = canal();
    let before = after(&table, &[round_0(), round_10()]);
    for (completion, class) in [(62, 0), (63, 5)] {
        let mut common = before.clone();
        let round = record(120, &[(0, 0)], &[report(3, 45, 0), report(3, completion, 0), None]);
        assert_eq!(closed(&table, &mut common, &round).classes[1], class);
        assert_eq!((common.base(), common.next_start()), (3, 122));
    }
}

#[test]
fn p8_an_empty_round_changes_only_the_last_rounds_time() {
    let table = canal();
    for before in [after(&table, &[]), after(&table, &[round_0(), round_10()])] {
        let mut common = before.clone();
        closed(&table, &mut common, &record(50, &[], &[None; 3]));
        assert_eq!(common.last_round(), Some(50));
        assert_eq!(common.jobs(), before.jobs());
        let values = |common: &reference::Common| {
            let earliest: Vec<u64> =
                (0..reference::Common::TASKS).map(|task| common.earliest(task)).collect();
            (common.base(), common.offset(), common.length(), common.next_start(), earliest)
        };
        assert_eq!(values(&common), values(&before));
    }
}

#[test]
fn p9_a_task_twice_in_a_list() {
    let table = canal();
    let twice = record(0, &[(0, 0), (0, 1)], &[None; 3]);
    assert_eq!(refused(&table, &after(&table, &[]), &twice), 16);
}

#[test]
fn p10_delays() {
    let table = canal();
    let mut common = after(&table, &[]);
    assert_eq!(refused(&table, &common, &record(0, &[(0, 0), (1, 2)], &[None; 3])), 15);
    closed(&table, &mut common, &record(0, &[(0, 0), (1, 1)], &[None; 3]));
    assert_eq!(common.jobs(), [0, 1]);
}

#[test]
fn p11_and_p12_bytes() {
    assert_eq!(number_from(&[0x80, 0x00]).unwrap_err().number(), 19);
    assert_eq!(number_from(&[]).unwrap_err().number(), 18);
}
