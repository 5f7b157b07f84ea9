//! Numbers, tables and records as bytes: P11, P12, the worked canal's session,
//! and what lent lists and buffers hold afterwards.

mod canal;

use cabinet::layout::{NUMBER_BYTES, RECORD_BYTES};
use cabinet::{ffi, read_number, write_number, Common, Record, Table};
use canal::*;

#[test]
fn the_worked_canals_session() {
    let bytes = bytes(SESSION);
    let (table, mut at) = Table::read(&bytes).unwrap();
    assert_eq!(table, canal());
    let mut common = Common::fresh();
    for (expected, record) in LINES.iter().zip([round_0(), round_10(), round_120()]) {
        let (read, used) = Record::read(&bytes[at..]).unwrap();
        assert_eq!(read, record);
        assert_eq!(read.to_bytes().unwrap(), bytes[at..at + used]);
        let told = closed(&table, &mut common, &read);
        assert_eq!(line(&table, read.time, &common, &told), *expected);
        at += used;
    }
    assert_eq!(at, bytes.len());
}

#[test]
fn p11_and_p12() {
    assert_eq!(number(read_number(&[0x80, 0x00])), 19);
    assert_eq!(number(read_number(&[])), 18);
}

#[test]
fn numbers_of_document_01() {
    for (value, groups) in [(127, &[0x7f][..]), (128, &[0x80, 0x01]), (400, &[0x90, 0x03])] {
        assert_eq!(read_number(groups), Ok((value, groups.len())));
        let mut buffer = [0xee; NUMBER_BYTES];
        assert_eq!(write_number(&mut buffer, value), Ok(groups.len()));
        assert_eq!(&buffer[..groups.len()], groups);
        assert!(buffer[groups.len()..].iter().all(|&byte| byte == 0xee), "bytes past the number stay");
    }
}

#[test]
fn the_largest_number_and_the_next() {
    let largest = (1 << 63) - 1;
    let mut buffer = [0; NUMBER_BYTES];
    assert_eq!(write_number(&mut buffer, largest), Ok(9));
    assert_eq!(read_number(&buffer), Ok((largest, 9)));
    assert_eq!(number(write_number(&mut buffer[..8], largest)), 21);
    assert_eq!(number(write_number(&mut buffer, largest + 1)), 22);
    assert_eq!(number(write_number(&mut [], largest + 1)), 22);
    assert_eq!(number(read_number(&[0xff; 9])), 19);
    assert_eq!(number(read_number(&[0xff; 8])), 18);
}

#[test]
fn the_refusals_of_a_table_that_is_read() {
    let whole = bytes(&SESSION[..TABLE_NUMBERS]);
    for length in 0..whole.len() {
        assert_eq!(number(Table::read(&whole[..length])), 18);
    }
    assert_eq!(number(Table::read(&bytes(&[16, 2, 3]))), 1);
    assert_eq!(number(Table::read(&[0x80, 0x00])), 19);
    let refusal = Table::read(&bytes(&[1, 2, 1, 0, 100, 100, 40])).unwrap_err();
    assert_eq!((refusal.number(), refusal.task()), (2, None));
}

#[test]
fn the_refusals_of_a_record_that_is_read() {
    let read = |numbers: &[u64]| number(Record::read(&bytes(numbers)));
    assert_eq!(read(&[0, 65]), 15);
    assert_eq!(read(&[0, 0, 16]), 15);
    assert_eq!(read(&[0, 0, 1, 2]), 20);
    assert_eq!(number(Record::read(&[0, 0, 1, 0x80, 0x00])), 19);
    let whole = round_10().to_bytes().unwrap();
    for length in 0..whole.len() {
        assert_eq!(number(Record::read(&whole[..length])), 18);
    }
}

/// Document 01: a lent list that is shorter than a count is 21, places past the
/// count stay, and a refused reading changes nothing.
#[test]
fn reading_into_lent_lists() {
    let whole = round_0().to_bytes().unwrap();
    let (mut releases, mut entries) = ([7; 6], [7; 16]);
    let reply = ffi::read_record(&whole, &mut releases, &mut entries);
    assert_eq!((reply.refusal, reply.time, reply.releases, reply.entries), (0, 0, 2, 3));
    assert_eq!(reply.used, whole.len() as u64);
    assert_eq!(releases, [1, 0, 2, 1, 7, 7]);
    assert_eq!(entries, [1, 0, 0, 0, 1, 0, 0, 0, 1, 0, 0, 0, 7, 7, 7, 7]);
    for (release_words, entry_words) in [(2, 16), (6, 8), (0, 0)] {
        let (mut releases, mut entries) = ([7; 6], [7; 16]);
        let reply = ffi::read_record(&whole, &mut releases[..release_words], &mut entries[..entry_words]);
        assert_eq!((reply.refusal, reply.used), (21, 0));
        assert_eq!((releases, entries), ([7; 6], [7; 16]));
    }
}

#[test]
fn the_refusals_of_a_record_that_is_written() {
    let mut buffer = [0xee; RECORD_BYTES];
    let mut refusal = |time, releases: &[(u64, u64)], entries: &[cabinet::Entry]| {
        let told = number(record(time, releases, entries).write(&mut buffer));
        assert_eq!(buffer, [0xee; RECORD_BYTES]);
        told
    };
    assert_eq!(refusal(0, &[(0, 0); 65], &[]), 15);
    assert_eq!(refusal(0, &[], &[None; 16]), 15);
    assert_eq!(refusal(1 << 63, &[], &[]), 22);
    assert_eq!(refusal(0, &[], &[entry(0, u64::MAX, 0)]), 22);
    let whole = round_10().to_bytes().unwrap();
    assert_eq!(number(round_10().write(&mut vec![0; whole.len() - 1])), 21);
    assert_eq!(round_10().write(&mut vec![0; whole.len()]), Ok(whole.len()));
}

#[test]
fn no_written_record_is_longer_than_the_header_says() {
    let largest = (1 << 63) - 1;
    let longest = record(largest, &[(largest, largest); 64], &[entry(largest, largest, largest); 15]);
    assert_eq!(longest.to_bytes().map(|bytes| bytes.len()), Ok(RECORD_BYTES));
    assert_eq!(Record::read(&longest.to_bytes().unwrap()), Ok((longest, RECORD_BYTES)));
}
