//! Document 01's worked canal as a station sees it, and P1, P4 to P10.

mod canal;

use cabinet::{Common, Table};
use canal::*;

#[test]
fn the_worked_canal_line_by_line() {
    let table = canal();
    let mut common = Common::fresh();
    for (round, expected) in [round_0(), round_10(), round_120()].iter().zip(LINES) {
        let told = closed(&table, &mut common, round);
        assert_eq!(line(&table, round.time, &common, &told), expected);
        assert!(!told.left_behind);
    }
    assert_eq!((common.base(), common.order()), (3, &[0][..]));
}

#[test]
fn what_each_round_tells_beside_its_line() {
    let table = canal();
    let mut common = Common::fresh();
    let told = closed(&table, &mut common, &round_0());
    assert_eq!((told.back_runner, told.majority), (Some(0), true));
    let told = closed(&table, &mut common, &round_10());
    assert_eq!((told.back_runner, told.majority), (Some(1), true));
    let told = closed(&table, &mut common, &round_120());
    assert_eq!((told.back_runner, told.majority), (Some(0), true));
    let told = closed(&table, &mut common, &record(200, &[], &[entry(4, 150, 0), None, None]));
    assert_eq!((told.back_runner, told.majority), (None, false));
    assert_eq!(told.classes, [5, 1, 1, 0, 0, 0, 0, 0, 0, 0, 0, 0, 0, 0, 0]);
}

#[test]
fn the_readers_at_the_start_and_after_round_0() {
    let table = canal();
    let fresh = Common::fresh();
    assert_eq!((fresh.length(), fresh.last_round(), fresh.order()), (0, None, &[][..]));
    let common = after(&table, &[round_0()]);
    assert_eq!((common.base(), common.offset(), common.length(), common.next_start()), (0, 0, 2, 2));
    assert_eq!((common.last_round(), common.order()), (Some(0), &[1, 2][..]));
    let earliest: Vec<u64> = (0..4).filter_map(|task| common.earliest(task)).collect();
    assert_eq!(earliest, [0, 200, 401, 0]);
    assert_eq!((common.earliest(63), common.earliest(64)), (Some(0), None));
}

#[test]
fn p1_projection_after_round_0() {
    let table = canal();
    let common = after(&table, &[round_0()]);
    let projections: Vec<u64> = (0..=2).map(|p| common.projection(&table, p).unwrap()).collect();
    assert_eq!(projections, [2, 22, 52]);
}

#[test]
fn p2_and_p3_the_bound_of_position_2() {
    let table = canal();
    let common = after(&table, &[round_0()]);
    let refusal = common.bound(&table, 2, 11).unwrap_err();
    assert_eq!((refusal.number(), refusal.task()), (9, Some(0)));
    assert_eq!(common.bound(&table, 2, 12), Ok(()));
}

#[test]
fn p4_round_10_gives_order_1_0_2() {
    let table = canal();
    assert_eq!(after(&table, &[round_0(), round_10()]).order(), [1, 0, 2]);
}

#[test]
fn p5_round_12_gives_order_1_2_0() {
    let table = canal();
    let mut common = after(&table, &[round_0()]);
    let round = record(12, &[(0, 0)], &[entry(1, 8, 0), entry(0, 0, 1), entry(2, 12, 0)]);
    assert_eq!(closed(&table, &mut common, &round).classes[2], 0);
    assert_eq!(common.order(), [1, 2, 0]);
}

#[test]
fn p6_and_p7_round_120_at_and_past_the_projection() {
    let table = canal();
    let before = after(&table, &[round_0(), round_10()]);
    for (completed, class) in [(62, 0), (63, 5)] {
        let mut common = before.clone();
        let round = record(120, &[(0, 0)], &[entry(3, 45, 0), entry(3, completed, 0), None]);
        assert_eq!(closed(&table, &mut common, &round).classes[1], class);
        assert_eq!((common.base(), common.next_start()), (3, 122));
    }
}

#[test]
fn p8_an_empty_round_changes_only_the_last_rounds_time() {
    let table = canal();
    for before in [Common::fresh(), after(&table, &[round_0(), round_10()])] {
        let mut common = before.clone();
        closed(&table, &mut common, &record(50, &[], &[None; 3]));
        assert_eq!(common.last_round(), Some(50));
        let mut words = *before.words();
        words[cabinet::layout::COMMON_BEGUN] = 1;
        words[cabinet::layout::COMMON_LAST] = 50;
        assert_eq!(common.words(), &words);
    }
}

#[test]
fn p9_a_task_twice_in_a_list() {
    let twice = record(0, &[(0, 0), (0, 1)], &[None; 3]);
    assert_eq!(refused(&canal(), &Common::fresh(), &twice), 16);
}

#[test]
fn p10_delays() {
    let table = canal();
    let mut common = Common::fresh();
    assert_eq!(refused(&table, &common, &record(0, &[(0, 0), (1, 2)], &[None; 3])), 15);
    closed(&table, &mut common, &record(0, &[(0, 0), (1, 1)], &[None; 3]));
    assert_eq!(common.order(), [0, 1]);
}

#[test]
fn the_refusals_of_a_stations_close() {
    let table = canal();
    let common = after(&table, &[round_0()]);
    let none = [None; 3];
    assert_eq!(refused(&table, &common, &record(1 << 48, &[], &none)), 3);
    assert_eq!(refused(&table, &common, &record(1, &[], &none)), 14);
    assert_eq!(refused(&table, &common, &record(2, &[], &[None; 2])), 15);
    assert_eq!(refused(&table, &common, &record(2, &[(3, 0)], &none)), 15);
    assert_eq!(refused(&table, &common, &record(2, &[(1, 0)], &none)), 16);
}

/// Lists longer than any table's are refused by the library, not cut here.
#[test]
fn over_long_lists_are_15() {
    let table = canal();
    let common = Common::fresh();
    assert_eq!(refused(&table, &common, &record(0, &[(0, 0); 65], &[None; 3])), 15);
    assert_eq!(refused(&table, &common, &record(0, &[], &[None; 16])), 15);
}

#[test]
fn the_257th_job_is_17() {
    let table = Table::checked(1, 1, &[task(1, 1, 1, 0)]).unwrap();
    let mut common = Common::fresh();
    for time in 0..256 {
        closed(&table, &mut common, &record(time, &[(0, 0)], &[None]));
    }
    assert_eq!((common.length(), common.order()), (256, &[0; 256][..]));
    assert_eq!(refused(&table, &common, &record(256, &[(0, 0)], &[None])), 17);
}
