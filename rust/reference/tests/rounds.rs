//! The judgement and the close of a round at their edges.

mod canal;

use canal::*;
use reference::{Common, Table, Task};

/// The class of node 0's report in a round of the worked canal that carries no
/// releases and no other report.
fn class(common: &Common, r: u64, entry: Option<reference::Report>) -> u8 {
    closed(&canal(), &mut common.clone(), &record(r, &[], &[entry, None, None])).classes[0]
}

#[test]
fn class_2_by_each_reason() {
    let common = after(&canal(), &[round_0()]);
    assert_eq!(class(&common, 60, report(1, 8, 1)), 0);
    assert_eq!(class(&common, 60, report(1, 8, 2)), 2);
    assert_eq!(class(&common, 60, report(2, 8, 0)), 0);
    assert_eq!(class(&common, 60, report(2, 8, 1)), 2);
    assert_eq!(class(&common, 60, report(3, 8, 0)), 2);
    assert_eq!(class(&common, 8, report(1, 8, 0)), 0);
    assert_eq!(class(&common, 7, report(1, 8, 0)), 2);
    assert_eq!(class(&common, 60, None), 1);
}

#[test]
fn class_2_adds_progress_and_run_as_whole_numbers() {
    let common = after(&canal(), &[round_0()]);
    for wide in [(u64::MAX, 1), (1, u64::MAX), (u64::MAX, u64::MAX), (u64::MAX - 1, 1)] {
        assert_eq!(class(&common, 60, report(wide.0, 8, wide.1)), 2);
    }
}

#[test]
fn class_3_is_below_the_base() {
    let table = canal();
    let back = record(40, &[], &[report(1, 22, 0), None, None]);
    let common = after(&table, &[round_0(), back]);
    assert_eq!(common.base(), 1);
    assert_eq!(class(&common, 50, report(0, 0, 0)), 3);
    assert_eq!(class(&common, 50, report(1, 22, 0)), 0);
}

#[test]
fn class_4_counts_tasks_with_a_job_queued() {
    let table = Table::check(1, 2, &[task(5, 20, 20, 15), task(15, 15, 15, 0)]).unwrap();
    let rounds = [record(0, &[(0, 0), (1, 0)], &[report(0, 0, 0)]), record(15, &[(1, 0)], &[None])];
    let common = after(&table, &rounds);
    assert_eq!((common.jobs(), common.projection(&table, 3)), (&[0, 1, 1][..], 37));
    // Task 0 is queued; its next release, at 20 or at r, allows 15 more.
    for (r, class) in [(17, 4), (21, 4), (22, 0)] {
        let round = record(r, &[], &[report(3, 0, 0)]);
        assert_eq!(closed(&table, &mut common.clone(), &round).classes[0], class, "at {r}");
    }
}

#[test]
fn class_4_at_the_edge_of_the_bound() {
    // Projection(2) is 52; task 0 is released at r at the earliest, slack 40.
    let common = after(&canal(), &[round_0()]);
    assert_eq!(class(&common, 11, report(1, 8, 1)), 4);
    assert_eq!(class(&common, 12, report(1, 8, 1)), 0);
    assert_eq!(class(&common, 11, report(2, 8, 0)), 4);
    assert_eq!(class(&common, 11, report(1, 8, 0)), 0);
}

#[test]
fn class_5_by_completion() {
    let common = after(&canal(), &[round_0()]);
    assert_eq!(class(&common, 60, report(1, 22, 0)), 0);
    assert_eq!(class(&common, 60, report(1, 23, 0)), 5);
}

#[test]
fn class_5_by_the_projection_of_the_next_position() {
    // After round 10: O = 1, W = 2, so projection(0) is 2 and projection(1) 22.
    let common = after(&canal(), &[round_0(), round_10()]);
    assert_eq!(common.offset(), 1);
    assert_eq!(class(&common, 22, report(0, 0, 0)), 0);
    assert_eq!(class(&common, 23, report(0, 0, 0)), 5);
    // At progress = O nothing is owed.
    assert_eq!(class(&common, 500, report(1, 8, 0)), 0);
}

#[test]
fn class_2_comes_before_3() {
    let back = record(40, &[], &[report(1, 22, 0), None, None]);
    let common = after(&canal(), &[round_0(), back]);
    assert_eq!(class(&common, 50, report(0, 50, 1)), 3);
    assert_eq!(class(&common, 50, report(0, 51, 1)), 2);
    assert_eq!(class(&common, 50, report(0, 50, 2)), 2);
}

#[test]
fn class_4_is_left_out_of_the_front_and_class_5_is_not() {
    let table = canal();
    let mut over = after(&table, &[round_0()]);
    closed(&table, &mut over, &record(11, &[], &[report(1, 8, 1), None, None]));
    assert_eq!(over.offset(), 0);
    let mut late = after(&table, &[round_0()]);
    closed(&table, &mut late, &record(60, &[], &[report(1, 23, 1), None, None]));
    assert_eq!((late.offset(), late.base(), late.next_start()), (2, 0, 2));
}

#[test]
fn the_offset_never_falls() {
    let table = canal();
    let mut common = after(&table, &[round_0(), round_10()]);
    closed(&table, &mut common, &record(20, &[], &[report(0, 0, 0), None, None]));
    assert_eq!(common.offset(), 1);
}

#[test]
fn the_back_runner_has_the_largest_start_of_the_least_progress() {
    let table = canal();
    let before = after(&table, &[round_0()]);
    let back = |completions: [u64; 3]| {
        let mut common = before.clone();
        let entries = completions.map(|completion| report(0, completion, 0).unwrap()).map(Some);
        let reply = closed(&table, &mut common, &record(20, &[], &entries));
        (reply.back_runner, common.next_start())
    };
    assert_eq!(back([2, 1, 0]), (0, 2));
    assert_eq!(back([0, 2, 2]), (1, 2));
    // Raw starts form the set: the larger-of with W comes after it.
    assert_eq!(back([0, 1, 1]), (1, 2));
}

#[test]
fn the_next_start_never_falls() {
    let table = canal();
    let mut common = after(&table, &[round_0()]);
    closed(&table, &mut common, &record(20, &[], &[report(1, 0, 0), None, None]));
    assert_eq!((common.base(), common.next_start()), (1, 2));
    closed(&table, &mut common, &record(30, &[], &[report(1, 1, 0), None, None]));
    assert_eq!(common.next_start(), 2);
}

#[test]
fn only_class_0_makes_a_back_runner() {
    let table = canal();
    let mut common = after(&table, &[round_0()]);
    let late = record(60, &[], &[report(1, 23, 0), report(2, 8, 0), None]);
    let reply = closed(&table, &mut common, &late);
    assert_eq!((reply.classes[0], reply.back_runner, common.base()), (5, 1, 2));
    let nobody = closed(&table, &mut common, &record(70, &[], &[None; 3]));
    assert_eq!((nobody.back_runner, common.base()), (15, 2));
}

#[test]
fn a_start_with_nothing_left_is_r_plus_timeout() {
    let table = canal();
    let mut common = after(&table, &[round_0()]);
    closed(&table, &mut common, &record(60, &[(0, 0)], &[report(2, 8, 0), report(2, 7, 0), None]));
    assert_eq!((common.base(), common.length(), common.next_start()), (2, 3, 62));
}

#[test]
fn the_majority_is_half_of_m_rounded_down_plus_one() {
    for (nodes, needed) in [(1, 1), (2, 2), (3, 2), (4, 3), (5, 3), (14, 8), (15, 8)] {
        let table = Table::check(nodes, 2, &canal_tasks()).unwrap();
        for healthy in 0..=nodes as usize {
            let mut entries = vec![None; nodes as usize];
            entries[..healthy].fill(report(0, 0, 0));
            let reply = closed(&table, &mut Common::fresh(), &record(0, &[], &entries));
            assert_eq!(reply.majority, healthy >= needed, "{healthy} of {nodes}");
        }
    }
}

#[test]
fn classes_5_count_for_the_majority_and_places_beyond_m_hold_0() {
    let table = canal();
    let mut common = after(&table, &[round_0()]);
    let reply = closed(&table, &mut common, &record(60, &[], &[report(1, 23, 0), report(1, 22, 0), None]));
    assert_eq!(reply.classes, [5, 0, 1, 0, 0, 0, 0, 0, 0, 0, 0, 0, 0, 0, 0]);
    assert!(reply.majority);
}

#[test]
fn a_release_stands_behind_its_own_and_higher_priorities() {
    let table = canal();
    let mut common = after(&table, &[record(0, &[(2, 0), (0, 0), (1, 0)], &[None; 3])]);
    assert_eq!(common.jobs(), [0, 1, 2]);
    closed(&table, &mut common, &record(200, &[(1, 0), (0, 1)], &[None; 3]));
    assert_eq!(common.jobs(), [0, 0, 1, 1, 2]);
}

#[test]
fn a_release_never_passes_the_new_offset() {
    let table = canal();
    let mut common = after(&table, &[record(0, &[(1, 0), (2, 0)], &[None; 3])]);
    // Node 0 starts position 1 in this very round; the old offset is 0.
    closed(&table, &mut common, &record(10, &[(0, 0)], &[report(0, 0, 1), None, None]));
    assert_eq!((common.offset(), common.jobs()), (1, &[1, 0, 2][..]));
}

#[test]
fn the_earliest_next_release_counts_the_delay() {
    let table = canal();
    let common = after(&table, &[round_0()]);
    assert_eq!([common.earliest(0), common.earliest(1), common.earliest(2)], [0, 200, 401]);
    assert_eq!(refused(&table, &common, &record(199, &[(1, 0)], &[None; 3])), 16);
    closed(&table, &mut common.clone(), &record(200, &[(1, 0)], &[None; 3]));
    assert_eq!(refused(&table, &common, &record(400, &[(2, 0)], &[None; 3])), 16);
    closed(&table, &mut common.clone(), &record(400, &[(0, 0), (2, 1)], &[None; 3]));
}

#[test]
fn refusal_3_looks_at_r_alone() {
    let table = canal();
    let most = reference::LATEST_TIME;
    let mut common = Common::fresh();
    for r in [most + 1, 1 << 63, u64::MAX] {
        assert_eq!(refused(&table, &common, &record(r, &[(9, 9)], &[])), 3);
    }
    closed(&table, &mut common, &record(most, &[(0, 0), (1, 1)], &[report(0, 0, 0); 3]));
    assert_eq!((common.next_start(), common.earliest(1)), (most + 2, most + 201));
    assert_eq!(refused(&table, &common, &record(most, &[], &[None; 3])), 14);
}

#[test]
fn refusal_14_just_below_and_at_the_timeout() {
    let table = canal();
    let common = after(&table, &[record(0, &[], &[None; 3])]);
    assert_eq!(refused(&table, &common, &record(1, &[(9, 9)], &[])), 14);
    closed(&table, &mut common.clone(), &record(2, &[], &[None; 3]));
}

#[test]
fn refusal_15_by_each_reason() {
    let table = canal();
    let common = Common::fresh();
    let list = |releases: &[(u64, u64)]| refused(&table, &common, &record(0, releases, &[None; 3]));
    assert_eq!(list(&[(0, 0); 65]), 15);
    assert_eq!(list(&[(0, 0); 64]), 16);
    assert_eq!(list(&[(3, 0)]), 15);
    assert_eq!(list(&[(u64::MAX, 0)]), 15);
    assert_eq!(list(&[(0, 1)]), 15);
    assert_eq!(list(&[(0, 0), (1, 2)]), 15);
    assert_eq!(list(&[(0, 0), (1, 1), (2, 0)]), 15);
    assert_eq!(refused(&table, &common, &record(0, &[], &[None; 2])), 15);
    assert_eq!(refused(&table, &common, &record(0, &[], &[None; 4])), 15);
    // 15 over the whole list comes before the 16 of its second release.
    assert_eq!(list(&[(0, 0), (0, 0), (3, 0)]), 15);
    closed(&table, &mut Common::fresh(), &record(0, &[(0, 0), (1, 1), (2, 1)], &[None; 3]));
}

/// One node and 64 tasks that can be released every 64 microseconds.
fn crowd() -> Table {
    let tasks: Vec<Task> = (0..64).map(|_| task(1, 64, 64, 1)).collect();
    Table::check(1, 1, &tasks).unwrap()
}

#[test]
fn refusal_17_uses_the_new_base() {
    let table = crowd();
    let all: Vec<(u64, u64)> = (0..64).map(|task| (task, 0)).collect();
    let rounds: Vec<_> = (0..4).map(|round| record(64 * round, &all, &[None])).collect();
    let common = after(&table, &rounds);
    assert_eq!(common.jobs().len(), 256);
    assert_eq!(refused(&table, &common, &record(256, &all[..1], &[None])), 17);
    assert_eq!(refused(&table, &common, &record(256, &all[..2], &[report(1, 0, 0)])), 17);
    let mut moved = common.clone();
    closed(&table, &mut moved, &record(256, &all[..1], &[report(1, 0, 0)]));
    assert_eq!((moved.base(), moved.length(), moved.jobs().len()), (1, 257, 256));
    // 16 comes first.
    assert_eq!(refused(&table, &common, &record(255, &all[..1], &[None])), 16);
}

#[test]
fn the_walk_over_the_kept_jobs_gives_the_projections() {
    let table = canal();
    let back = record(40, &[], &[report(1, 22, 0), None, None]);
    let common = after(&table, &[round_0(), round_10(), back]);
    for job in common.kept(&table) {
        assert_eq!(job.projection, common.projection(&table, job.position));
        assert_eq!(job.task, common.task_at(job.position));
    }
    assert_eq!(common.kept(&table).count(), 2);
}
