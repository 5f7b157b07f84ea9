//! Numbers and records as bytes: refusals 15 and 18 to 22 at their places, and
//! what lent lists and buffers hold afterwards.

mod canal;

use canal::*;
use reference::written::*;
use reference::{Record, Refusal, Release, Report};

fn number<T: std::fmt::Debug>(reply: Result<T, Refusal>) -> u8 {
    reply.expect_err("a refusal").number()
}

#[test]
fn the_papers_numbers() {
    let cases: [(u64, &[u8]); 5] =
        [(0, &[0]), (127, &[0x7f]), (128, &[0x80, 1]), (400, &[0x90, 3]), ((1 << 63) - 1, &MOST)];
    for (value, bytes) in cases {
        assert_eq!(number_from(bytes), Ok((value, bytes.len())));
        let mut written = Vec::new();
        push_number(value, &mut written).unwrap();
        assert_eq!(written, bytes);
    }
}

const MOST: [u8; 9] = [0xff, 0xff, 0xff, 0xff, 0xff, 0xff, 0xff, 0xff, 0x7f];

#[test]
fn every_group_count_comes_back() {
    for bits in 0..63 {
        for value in [1u64 << bits, (1 << bits) - 1, (1 << bits) + 1] {
            let mut buffer = [0xaa; 12];
            let length = write_number(value, &mut buffer).unwrap();
            assert_eq!(number_from(&buffer), Ok((value, length)));
            assert!(buffer[length..].iter().all(|&byte| byte == 0xaa));
        }
    }
}

#[test]
fn faults_of_a_number() {
    assert_eq!(number(number_from(&[0x80])), 18);
    assert_eq!(number(number_from(&[0xff; 8])), 18);
    assert_eq!(number(number_from(&[0xff; 9])), 19);
    assert_eq!(number(number_from(&[0xff; 10])), 19);
    assert_eq!(number(number_from(&[0x80, 0x80, 0])), 19);
    let mut ninth_zero = MOST;
    ninth_zero[8] = 0;
    assert_eq!(number(number_from(&ninth_zero)), 19);
    ninth_zero[8] = 0x80;
    assert_eq!(number(number_from(&ninth_zero)), 19);
}

#[test]
fn a_presence_mark_is_a_number() {
    let with_mark = |mark: &[u8]| record_from(&[&[0, 0, 1][..], mark].concat());
    assert_eq!(number(with_mark(&[0x81, 0x00])), 19);
    assert_eq!(number(with_mark(&[0x80, 0x01])), 20);
    assert_eq!(number(with_mark(&[0x80])), 18);
    assert_eq!(number(with_mark(&[2])), 20);
    assert_eq!(with_mark(&[0]), Ok((record(0, &[], &[None]), 4)));
    assert_eq!(with_mark(&[1, 3, 4, 5, 6]), Ok((record(0, &[], &[report(3, 4, 5)]), 7)));
}

#[test]
fn counts_are_refused_as_soon_as_they_are_met() {
    assert_eq!(number(record_from(&[0, 65])), 15);
    assert_eq!(number(record_from(&[0, 64])), 18);
    assert_eq!(number(record_from(&[0, 65, 0x80, 0])), 15);
    assert_eq!(number(record_from(&[0, 0, 16])), 15);
    assert_eq!(number(record_from(&[0, 0, 15])), 18);
    assert_eq!(number(record_from(&[0, 0x80, 0])), 19);
}

#[test]
fn a_record_cut_anywhere_is_18_and_whole_comes_back() {
    let whole = round_10();
    let bytes = record_bytes(&whole).unwrap();
    for cut in 0..bytes.len() {
        assert_eq!(number(record_from(&bytes[..cut])), 18, "cut at {cut}");
    }
    let mut followed = bytes.clone();
    followed.extend([0xff; 20]);
    assert_eq!(record_from(&followed), Ok((whole, bytes.len())));
}

const OLD: Release = Release { task: 77, delay: 77 };
const KEPT: Option<Report> = Some(Report { progress: 77, completion: 77, run: 77 });

#[test]
fn lent_lists_keep_what_lies_past_the_counts() {
    let bytes = record_bytes(&record(9, &[(1, 0)], &[None, report(1, 2, 1)])).unwrap();
    let (mut releases, mut entries) = ([OLD; 3], [KEPT; 4]);
    let read = record_into(&bytes, &mut releases, &mut entries).unwrap();
    assert_eq!(read, ReadInto { r: 9, releases: 1, entries: 2, used: bytes.len() });
    assert_eq!(releases, [Release { task: 1, delay: 0 }, OLD, OLD]);
    assert_eq!(entries, [None, report(1, 2, 1), KEPT, KEPT]);
}

#[test]
fn short_lists_are_21_after_that_counts_15_and_stay_whole() {
    let into = |bytes: &[u8], room: (usize, usize)| {
        let (mut releases, mut entries) = (vec![OLD; room.0], vec![KEPT; room.1]);
        let refusal = number(record_into(bytes, &mut releases, &mut entries));
        assert!(releases.iter().all(|&release| release == OLD));
        assert!(entries.iter().all(|&entry| entry == KEPT));
        refusal
    };
    assert_eq!(into(&[0, 65], (0, 0)), 15);
    assert_eq!(into(&[0, 2, 0x80, 0], (1, 15)), 21);
    assert_eq!(into(&[0, 2, 0x80, 0], (2, 15)), 19);
    assert_eq!(into(&[0, 1, 5, 6, 16], (1, 0)), 15);
    assert_eq!(into(&[0, 1, 5, 6, 2, 9], (1, 1)), 21);
    assert_eq!(into(&[0, 1, 5, 6, 2, 0, 9], (1, 2)), 20);
}

#[test]
fn writing_is_refused_15_then_22_then_21() {
    let mut buffer = [0xaa; 64];
    let mut write = |record: &Record, room: usize| {
        let refusal = number(write_record(record, &mut buffer[..room]));
        assert_eq!(buffer, [0xaa; 64]);
        refusal
    };
    assert_eq!(write(&record(u64::MAX, &[(0, 0); 65], &[]), 0), 15);
    assert_eq!(write(&record(u64::MAX, &[], &[None; 16]), 0), 15);
    for place in 0..6 {
        let mut values = [1; 6];
        values[place] = 1 << 63;
        let [r, task, delay, progress, completion, run] = values;
        assert_eq!(write(&record(r, &[(task, delay)], &[report(progress, completion, run)]), 0), 22);
    }
    let bytes = record_bytes(&round_10()).unwrap();
    assert_eq!(write(&round_10(), bytes.len() - 1), 21);
    assert_eq!(write_record(&round_10(), &mut buffer[..bytes.len()]), Ok(bytes.len()));
    assert_eq!(&buffer[..bytes.len()], bytes);
    assert!(buffer[bytes.len()..].iter().all(|&byte| byte == 0xaa));
}

#[test]
fn writing_a_number_is_refused_22_then_21() {
    assert_eq!(number(write_number(1 << 63, &mut [])), 22);
    assert_eq!(number(write_number(u64::MAX, &mut [0; 12])), 22);
    let mut short = [0xaa; 8];
    assert_eq!(number(write_number((1 << 63) - 1, &mut short)), 21);
    assert_eq!(short, [0xaa; 8]);
    assert_eq!(number(write_number(0, &mut [])), 21);
}
