//! Numbers, tables and records read and written through the doors: into lists of
//! every room and buffers of every length that matters, which hold something
//! already, so that a place which should have stayed is told.

use reference::written::{push_number, record_bytes};
use reference::{Common, Record, Release, Report, Table};

use crate::doors::beside::Beside;
use crate::doors::layout::{ENTRY_WORDS, RELEASE_WORDS, TABLE_WORDS};
use crate::doors::model::words::{entry_words, release_words};
use crate::doors::{Call, Lent, Room, Told};
use crate::random::Random;

/// Lists that hold something already, with room for so many.
fn rooms(bytes: &[u8], releases: usize, entries: usize) -> Lent {
    Lent {
        bytes: Room::holding(bytes),
        releases: Room::holding(&vec![7; releases * RELEASE_WORDS]),
        entries: Room::holding(&vec![9; entries * ENTRY_WORDS]),
        ..Lent::default()
    }
}

/// Every number at an edge of its groups, into buffers of every length; and read
/// whole, cut short at every byte, and in the forms that are refused.
pub fn numbers(beside: &mut Beside) -> Result<(), String> {
    let edges = (0..10).flat_map(|group| {
        let edge = 1_u64.checked_shl(7 * group).unwrap_or(u64::MAX);
        [edge - 1, edge, edge.saturating_add(1)]
    });
    for number in edges.chain([(1 << 63) - 1, 1 << 63, u64::MAX]) {
        let mut bytes = Vec::new();
        let writable = push_number(number, &mut bytes).is_ok();
        for room in 0..=10 {
            let lent = Lent { bytes: Room::holding(&vec![0x55; room]), ..Lent::default() };
            beside.call(Call::WriteNumber { number }, &lent)?;
            let exact = writable && room == bytes.len();
            beside.reached.note_if(exact, "write_number: a buffer of the number's length");
            let short = writable && room + 1 == bytes.len();
            beside.reached.note_if(short, "write_number: a buffer one short");
        }
        for form in forms(&bytes) {
            for cut in 0..=form.len() {
                let lent = Lent { bytes: Room::holding(&form[..cut]), ..Lent::default() };
                beside.call(Call::ReadNumber, &lent)?;
            }
        }
    }
    Ok(())
}

/// A number's bytes, with others behind, with a last group of 0, and going on.
fn forms(bytes: &[u8]) -> Vec<Vec<u8>> {
    let mut going_on = bytes.to_vec();
    if let Some(last) = going_on.last_mut() {
        *last |= 0x80;
    }
    let with = |mut bytes: Vec<u8>, more: &[u8]| {
        bytes.extend(more);
        bytes
    };
    vec![
        with(bytes.to_vec(), &[0x80, 0xff, 0]),
        with(going_on.clone(), &[0]),
        with(going_on.clone(), &[0x80, 0]),
        with(going_on, &[0xff; 9]),
    ]
}

/// A session's table and then its records, each read into rooms at and about its
/// counts, and written again where it was read.
pub fn session(beside: &mut Beside, random: &mut Random, bytes: &[u8]) -> Result<(), String> {
    let lent =
        Lent { bytes: Room::holding(bytes), table: Room::holding(&[7; TABLE_WORDS]), ..Lent::default() };
    let (told, _) = beside.call(Call::ReadTable, &lent)?;
    let mut rest = match told {
        Told::Value { refusal: 0, value } => &bytes[value as usize..],
        _ => &bytes[random.below(bytes.len() as u64 + 1) as usize..],
    };
    for _ in 0..8 {
        let whole = rooms(rest, Common::TASKS, Table::NODES);
        let (told, after) = beside.call(Call::ReadRecord, &whole)?;
        let Told::Record { refusal: 0, time, releases, entries, used } = told else {
            return record_about(beside, random, rest, Common::TASKS, Table::NODES);
        };
        record_about(beside, random, rest, releases as usize, entries as usize)?;
        let (releases, entries) = (releases as usize * RELEASE_WORDS, entries as usize * ENTRY_WORDS);
        let (this, further) = rest.split_at(used as usize);
        write_again(beside, time, &after.releases[..releases], &after.entries[..entries], this)?;
        rest = further;
    }
    Ok(())
}

/// A record read into rooms at its counts, one less, one more, and any.
fn record_about(
    beside: &mut Beside,
    random: &mut Random,
    bytes: &[u8],
    releases: usize,
    entries: usize,
) -> Result<(), String> {
    let any = (random.below(67) as usize, random.below(18) as usize);
    let pairs = [
        (releases, entries),
        (releases.saturating_sub(1), entries),
        (releases, entries.saturating_sub(1)),
        (releases + 1, entries + 1),
        any,
    ];
    for (release_room, entry_room) in pairs {
        let (told, _) = beside.call(Call::ReadRecord, &rooms(bytes, release_room, entry_room))?;
        let Told::Record { refusal, releases: read, entries: entered, .. } = told else { unreachable!() };
        let fits = refusal == 0 && (read, entered) == (release_room as u64, entry_room as u64);
        beside.reached.note_if(fits, "read_record: rooms for the counts and no more");
        let releases_short = refusal == 21 && release_room + 1 == releases && entry_room == entries;
        beside.reached.note_if(releases_short, "read_record: 21 for the releases, by one");
        let entries_short = refusal == 21 && release_room == releases && entry_room + 1 == entries;
        beside.reached.note_if(entries_short, "read_record: 21 for the entries, by one");
    }
    Ok(())
}

/// "writing gives back the very bytes of every record that was read"; then into
/// buffers that are one short, empty or longer.
fn write_again(
    beside: &mut Beside,
    r: u64,
    releases: &[u64],
    entries: &[u64],
    bytes: &[u8],
) -> Result<(), String> {
    for room in [bytes.len(), bytes.len() - 1, 0, bytes.len() + 5] {
        let lent = Lent {
            bytes: Room::holding(&vec![0x55; room]),
            releases: Room::holding(releases),
            entries: Room::holding(entries),
            ..Lent::default()
        };
        let (told, after) = beside.call(Call::WriteRecord { r }, &lent)?;
        if room == bytes.len() {
            if told.refusal() != 0 || after.bytes[..] != *bytes {
                return Err(format!("a record that was read from {bytes:?} is written as {:?}", after.bytes));
            }
            beside.reached.note("write_record: the bytes that were read");
            beside.reached.note("write_record: a buffer of the record's length");
        }
        beside.reached.note_if(room + 1 == bytes.len(), "write_record: a buffer one short");
    }
    Ok(())
}

/// Records of a few counts read into lists of every room, 0 to 66 and 0 to 17,
/// whole and cut after each count, so that 15 and 21 meet every later fault.
pub fn every_room(beside: &mut Beside) -> Result<(), String> {
    for (releases, entries) in [(0, 0), (3, 2), (64, 15), (65, 15), (64, 16), (2, 200)] {
        let bytes = record_of(releases, entries);
        let cut = after_count(releases);
        for release_room in 0..=66 {
            for entry_room in 0..=17 {
                for bytes in [&bytes[..], &bytes[..cut]] {
                    let (told, _) = beside.call(Call::ReadRecord, &rooms(bytes, release_room, entry_room))?;
                    let short = (release_room as u64) < releases;
                    let both = short && releases > 64 && told.refusal() == 15;
                    beside.reached.note_if(both, "read_record: 15 where the room is short too");
                    let first = bytes.len() == cut && short && told.refusal() == 21;
                    beside.reached.note_if(first, "read_record: 21 before a later fault");
                }
            }
        }
    }
    Ok(())
}

/// The bytes of a record with these counts, which may be above their limits.
fn record_of(releases: u64, entries: u64) -> Vec<u8> {
    let mut numbers = vec![300, releases];
    for release in 0..releases {
        numbers.extend([release, 2 * release]);
    }
    numbers.push(entries);
    for entry in 0..entries {
        match entry % 3 {
            0 => numbers.push(0),
            _ => numbers.extend([1, entry, 1000 * entry, 1]),
        }
    }
    packed(&numbers)
}

/// Where the bytes of the releases begin.
fn after_count(releases: u64) -> usize {
    packed(&[300, releases]).len()
}

fn packed(numbers: &[u64]) -> Vec<u8> {
    let mut bytes = Vec::new();
    for &number in numbers {
        push_number(number, &mut bytes).expect("a number below 2^63");
    }
    bytes
}

/// Records written whose counts are at and above their limits and whose numbers
/// are too large: 15 before 22 before 21.
pub fn written(beside: &mut Beside, random: &mut Random) -> Result<(), String> {
    for _ in 0..600 {
        let record = any_record(random);
        let length = record_bytes(&record).map_or(10, |bytes| bytes.len());
        let about = random.about(length as u64) as usize;
        let lent = Lent {
            bytes: Room::holding(&vec![0x55; random.pick(&[about, length, 0, 1583, 5000])]),
            releases: Room::holding(&release_words(&record.releases)),
            entries: Room::holding(&entry_words(&record.entries)),
            ..Lent::default()
        };
        beside.call(Call::WriteRecord { r: record.r }, &lent)?;
    }
    Ok(())
}

fn any_record(random: &mut Random) -> Record {
    let releases = random.pick(&[0, 1, 3, 63, 64, 65, 100]);
    let entries = random.pick(&[0, 1, 3, 14, 15, 16, 40]);
    let spoilt = random.chance(1, 2);
    let number = |random: &mut Random| {
        let (small, wide) = (random.below(300), random.wide());
        let far = if spoilt { random.widest() } else { small };
        random.weighted(&[(80, small), (20, wide), (1, far)])
    };
    Record {
        r: number(random),
        releases: (0..releases).map(|_| Release { task: number(random), delay: number(random) }).collect(),
        entries: (0..entries)
            .map(|_| {
                let report =
                    Report { progress: number(random), completion: number(random), run: number(random) };
                random.chance(3, 4).then_some(report)
            })
            .collect(),
    }
}
