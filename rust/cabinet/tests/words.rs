//! What the library refuses of itself, 100 to 104: arrays of another length,
//! tables and states that are none, marks and positions. States stored as words
//! are taken again, and damaged ones are not.

mod canal;

use cabinet::layout::*;
use cabinet::{ffi, Common, Node};
use canal::*;

const NONE: [u64; 3 * ENTRY_WORDS] = [0; 3 * ENTRY_WORDS];

/// The refusals of the calls that take a node. They must all be refusals, and
/// leave it as it was.
fn node_calls(table: &[u64], node: &[u64]) -> [u64; 4] {
    let mut lent = node.to_vec();
    let told = [
        ffi::start(table, &mut lent, 50).refusal,
        ffi::finish(table, &mut lent, 50).refusal,
        ffi::report(table, &mut lent, 50).refusal,
        ffi::close(table, &mut lent, 10, &[], &NONE).refusal,
    ];
    assert_eq!(lent, node, "a refusal changes nothing");
    told
}

/// The same for a common record.
fn common_calls(table: &[u64], common: &[u64]) -> [u64; 4] {
    let mut lent = common.to_vec();
    let mut order = [7; PLACES];
    let told = [
        ffi::close_station(table, &mut lent, 50, &[], &NONE).refusal,
        ffi::projection(table, common, 0).refusal,
        ffi::bound(table, common, 1, 50).refusal,
        ffi::order(table, common, &mut order).refusal,
    ];
    assert_eq!((&lent[..], order), (common, [7; PLACES]), "a refusal changes nothing");
    told
}

/// An array that is one word short, one word long, or empty.
fn other_lengths(words: &[u64]) -> [Vec<u64>; 3] {
    let mut longer = words.to_vec();
    longer.push(0);
    [words[..words.len() - 1].to_vec(), longer, Vec::new()]
}

#[test]
fn a_table_of_another_length_is_100_everywhere() {
    let table = canal();
    let node = begun(&table, 0);
    for wrong in other_lengths(table.words()) {
        assert_eq!(ffi::check_table(&wrong).refusal, 100);
        assert_eq!(ffi::fresh_node(&wrong, &mut node.words().clone(), 0).refusal, 100);
        assert_eq!(node_calls(&wrong, node.words()), [100; 4]);
        assert_eq!(common_calls(&wrong, node.common().words()), [100; 4]);
        let mut lent = wrong.clone();
        assert_eq!(ffi::read_table(&bytes(&SESSION[..TABLE_NUMBERS]), &mut lent).refusal, 100);
        assert_eq!(lent, wrong);
    }
}

#[test]
fn a_table_that_fails_the_check_is_101_everywhere() {
    let table = canal();
    let node = begun(&table, 0);
    for (place, value) in [(TABLE_NODES, 0), (TABLE_TASKS, 65), (TABLE_TASKS, u64::MAX), (TABLE_C, 0)] {
        let mut wrong = *table.words();
        wrong[place] = value;
        let mut lent = [7; NODE_WORDS];
        assert_eq!(ffi::fresh_node(&wrong, &mut lent, 0).refusal, 101);
        assert_eq!(lent, [7; NODE_WORDS]);
        assert_eq!(node_calls(&wrong, node.words()), [101; 4]);
        assert_eq!(common_calls(&wrong, node.common().words()), [101; 4]);
    }
}

#[test]
fn a_state_of_another_length_is_100() {
    let table = canal();
    let node = begun(&table, 0);
    for wrong in other_lengths(node.words()) {
        assert_eq!(node_calls(table.words(), &wrong), [100; 4]);
        assert_eq!(number(Node::from_words(&table, &wrong)), 100);
        assert_eq!(ffi::fresh_node(table.words(), &mut wrong.clone(), 0).refusal, 100);
    }
    for wrong in other_lengths(node.common().words()) {
        assert_eq!(common_calls(table.words(), &wrong), [100; 4]);
        assert_eq!(number(Common::from_words(&table, &wrong)), 100);
        assert_eq!(ffi::fresh_common(&mut wrong.clone()).refusal, 100);
    }
}

/// The arrays are looked at from left to right, each first for its length.
#[test]
fn the_first_wrong_array_decides() {
    let table = canal();
    let mut node = *begun(&table, 0).words();
    let mut broken = *table.words();
    broken[TABLE_C] = 0;
    assert_eq!(ffi::start(&broken, &mut node[1..], 5).refusal, 101);
    assert_eq!(ffi::fresh_node(&broken, &mut node[1..], 9).refusal, 101);
    assert_eq!(ffi::fresh_node(table.words(), &mut node[1..], 9).refusal, 100);
    node[NODE_RUNNING] = 2;
    assert_eq!(ffi::close(table.words(), &mut node, 10, &[0], &[2]).refusal, 102);
    node[NODE_RUNNING] = 0;
    let marks = [2, 0, 0, 0];
    assert_eq!(ffi::close(table.words(), &mut node, 10, &[0], &marks).refusal, 100);
    assert_eq!(ffi::close(table.words(), &mut node, 10, &[], &marks[1..]).refusal, 100);
    assert_eq!(ffi::close(table.words(), &mut node, 10, &[], &marks).refusal, 103);
    assert_eq!(ffi::close(table.words(), &mut node, 10, &[], &NONE).refusal, 12);
}

/// Words of a common record after round 0 (B 0, O 0, two jobs, tasks 1 and 2),
/// each with a value that no library call leaves there.
const BROKEN_COMMON: [(usize, u64); 14] = [
    (COMMON_BASE, 1),
    (COMMON_BASE, u64::MAX),
    (COMMON_START, 1 << 49),
    (COMMON_OFFSET, 3),
    (COMMON_OFFSET, u64::MAX),
    (COMMON_COUNT, 1),
    (COMMON_COUNT, 257),
    (COMMON_COUNT, u64::MAX),
    (COMMON_BEGUN, 2),
    (COMMON_LAST, 1 << 48),
    (COMMON_EARLIEST + 63, 1 << 49),
    (COMMON_ORDER, 3),
    (COMMON_ORDER + 1, 256),
    (COMMON_ORDER + 255, 1),
];

#[test]
fn a_flipped_word_of_a_common_record_is_102() {
    let table = canal();
    let common = after(&table, &[round_0()]);
    assert_eq!(Common::from_words(&table, common.words()), Ok(common.clone()));
    for (place, value) in BROKEN_COMMON {
        let mut words = *common.words();
        words[place] = value;
        assert_eq!(common_calls(table.words(), &words), [102; 4], "{value} at {place}");
        assert_eq!(number(Common::from_words(&table, &words)), 102, "{value} at {place}");
    }
    let mut words = *common.words();
    words[COMMON_BEGUN] = 0;
    words[COMMON_LAST] = 5;
    assert_eq!(common_calls(table.words(), &words), [102; 4], "a last round, and no round has been");
    let mut words = *common.words();
    words[COMMON_EARLIEST..COMMON_ORDER].fill(0);
    assert_eq!(common_calls(table.words(), &words), [102; 4], "jobs that were never released");
}

#[test]
fn a_flipped_word_of_a_node_is_102() {
    let table = canal();
    let mut node = begun(&table, 1);
    node.start(&table, 5).unwrap();
    node.report(&table, 10).unwrap();
    assert_eq!(Node::from_words(&table, node.words()), Ok(node.clone()));
    let own = [
        (NODE_NUMBER, 3),
        (NODE_NUMBER, u64::MAX),
        (NODE_PROGRESS, 2),
        (NODE_PROGRESS, u64::MAX),
        (NODE_COMPLETED, 1 << 48),
        (NODE_RUNNING, 2),
        (NODE_LATEST, 1 << 49),
        (NODE_OPEN, 0),
        (NODE_OPEN, 2),
        (NODE_TIME, 1 << 48),
        (NODE_SENT, 3),
        (NODE_SENT + 1, 1 << 48),
        (NODE_SENT + 2, 2),
    ];
    let within = BROKEN_COMMON.map(|(place, value)| (NODE_COMMON + place, value));
    for (place, value) in own.into_iter().chain(within) {
        let mut words = *node.words();
        words[place] = value;
        assert_eq!(node_calls(table.words(), &words), [102; 4], "{value} at {place}");
        assert_eq!(number(Node::from_words(&table, &words)), 102, "{value} at {place}");
    }
}

/// With no round open, nothing stands where an open one's time and report do.
#[test]
fn what_a_shut_round_leaves_is_102() {
    let table = canal();
    let node = begun(&table, 1);
    for (place, value) in
        [(NODE_OPEN, 2), (NODE_TIME, 1), (NODE_SENT, 1), (NODE_SENT + 1, 1), (NODE_SENT + 2, 1)]
    {
        let mut words = *node.words();
        words[place] = value;
        assert_eq!(node_calls(table.words(), &words), [102; 4], "{value} at {place}");
        assert_eq!(number(Node::from_words(&table, &words)), 102, "{value} at {place}");
    }
}

/// A node stored and taken again after each step goes on as if it had not been.
#[test]
fn a_state_is_stored_and_taken_again_at_every_step() {
    let table = canal();
    let again = |node: Node| Node::from_words(&table, node.words()).expect("a node that the library wrote");
    let mut node = again(Node::fresh(&table, 0).unwrap());
    node.report(&table, 0).unwrap();
    node = again(node);
    node.close(&table, &round_0()).unwrap();
    node = again(node);
    assert_eq!(node.start(&table, 2), Ok(1));
    node = again(node);
    node.finish(&table, 8).unwrap();
    node = again(node);
    assert_eq!(node.report(&table, 10), Ok(sent(1, 8, 0)));
    node = again(node);
    node.close(&table, &round_10()).unwrap();
    node = again(node);
    assert_eq!(node.start(&table, 12), Ok(0));
    let common = Common::from_words(&table, node.common().words()).unwrap();
    assert_eq!(common, after(&table, &[round_0(), round_10()]));
}

/// A state of one table under another: task 2 is unknown to a table of two.
#[test]
fn a_state_of_another_table_is_102() {
    let table = canal();
    let mut smaller = canal_tasks();
    smaller[1].s = 0;
    let smaller = cabinet::Table::checked(3, 2, &smaller[..2]).unwrap();
    let mut node = begun(&table, 2);
    assert_eq!(number(node.start(&smaller, 5)), 102);
    assert_eq!(number(node.common().projection(&smaller, 0)), 102);
    assert_eq!(number(Node::from_words(&smaller, node.words())), 102);
    let fewer = cabinet::Table::checked(2, 2, &canal_tasks()).unwrap();
    assert_eq!(number(node.report(&fewer, 10)), 102, "node 2 of two nodes");
}

/// A mark of 2 is 103; what stands behind a mark of 0 is not looked at.
#[test]
fn marks_of_entries() {
    let table = canal();
    let mut common = *after(&table, &[round_0()]).words();
    let before = common;
    for place in 0..3 {
        let mut entries = NONE;
        entries[place * ENTRY_WORDS] = 2;
        assert_eq!(ffi::close_station(table.words(), &mut common, 10, &[], &entries).refusal, 103);
        assert_eq!(common, before);
        let mut bytes = [7; RECORD_BYTES];
        assert_eq!(ffi::write_record(&mut bytes, 10, &[], &entries).refusal, 103);
        assert_eq!(bytes, [7; RECORD_BYTES]);
    }
    let behind = [0, 9, 9, 9, 0, u64::MAX, 0, 1, 0, 0, 0, 0];
    let told = ffi::close_station(table.words(), &mut common, 10, &[], &behind);
    assert_eq!((told.refusal, &told.classes[..3]), (0, &[1, 1, 1][..]));
}

#[test]
fn lists_of_another_length_are_100() {
    let table = canal();
    let mut common = *after(&table, &[round_0()]).words();
    for (releases, entries) in [(&[0][..], &NONE[..]), (&[][..], &NONE[..11]), (&[][..], &NONE[..1])] {
        assert_eq!(ffi::close_station(table.words(), &mut common, 10, releases, entries).refusal, 100);
        assert_eq!(ffi::write_record(&mut [0; 99], 10, releases, entries).refusal, 100);
        let (mut into, mut entered) = (releases.to_vec(), entries.to_vec());
        assert_eq!(ffi::read_record(&[0, 0, 0], &mut into, &mut entered).refusal, 100);
    }
}

/// After round 120 the common record keeps position 4 alone, and B is 3.
#[test]
fn positions_that_are_not_kept_are_104() {
    let table = canal();
    let common = after(&table, &[round_0(), round_10(), round_120()]);
    assert_eq!(common.projection(&table, 3), Ok(122));
    assert_eq!(common.projection(&table, 4), Ok(132));
    for position in [0, 2, 5, u64::MAX] {
        assert_eq!(number(common.projection(&table, position)), 104);
    }
    assert_eq!(common.bound(&table, 4, 0), Ok(()));
    for position in [0, 3, 5, u64::MAX] {
        assert_eq!(number(common.bound(&table, position, 0)), 104);
        assert_eq!(number(common.bound(&table, position, 1 << 48)), 3);
    }
}

#[test]
fn the_order_into_a_list() {
    let table = canal();
    let common = after(&table, &[round_0(), round_10()]);
    let mut order = [7; 5];
    assert_eq!(common.copy_order(&table, &mut order), Ok(3));
    assert_eq!(order, [1, 0, 2, 7, 7]);
    let mut short = [7; 2];
    assert_eq!(number(common.copy_order(&table, &mut short)), 100);
    assert_eq!(short, [7; 2]);
    assert_eq!(Common::fresh().copy_order(&table, &mut []), Ok(0));
}

/// What stood in the lent words does not matter to a fresh state.
#[test]
fn fresh_states_are_all_zeros_but_the_number() {
    let table = canal();
    let mut common = [7; COMMON_WORDS];
    assert_eq!(ffi::fresh_common(&mut common).refusal, 0);
    assert_eq!(common, [0; COMMON_WORDS]);
    let mut node = [7; NODE_WORDS];
    assert_eq!(ffi::fresh_node(table.words(), &mut node, 2).refusal, 0);
    let mut expected = [0; NODE_WORDS];
    expected[NODE_NUMBER] = 2;
    assert_eq!(node, expected);
}
