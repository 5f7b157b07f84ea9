//! Whole sessions as bytes: played to the end, with a broken table, damaged,
//! cut short, or with one number written in a form that is refused.

use reference::written::{push_number, record_numbers};

use crate::random::Random;
use crate::rounds::{Mood, Play};
use crate::tables::{broken, table, Shape};

#[derive(Clone, Copy, Debug, PartialEq, Eq)]
enum Kind {
    Played,
    Crowded,
    Long,
    BrokenTable,
    BadNumber,
    OtherNumber,
    Count,
    Damaged,
    Cut,
    Noise,
}

const KINDS: &[(u64, Kind)] = &[
    (520, Kind::Played),
    (70, Kind::Crowded),
    (4, Kind::Long),
    (120, Kind::BrokenTable),
    (90, Kind::BadNumber),
    (50, Kind::OtherNumber),
    (30, Kind::Count),
    (80, Kind::Damaged),
    (60, Kind::Cut),
    (6, Kind::Noise),
];

/// The session with this number under this seed.
pub fn session(seed: u64, number: u64) -> Vec<u8> {
    let mut mixed = Random::new(seed.wrapping_mul(0x0100_0000_01B3).wrapping_add(number));
    let random = &mut Random::new(mixed.number());
    let kind = random.weighted(KINDS);
    match kind {
        Kind::Noise => noise(random),
        Kind::BrokenTable => packed(&broken_table(random)),
        _ => {
            let numbers = played(random, kind);
            spoilt(random, kind, numbers)
        }
    }
}

/// The bytes of a played session after what its kind does to them.
fn spoilt(random: &mut Random, kind: Kind, mut numbers: Vec<u64>) -> Vec<u8> {
    match kind {
        Kind::BadNumber => bad_number(random, &numbers),
        Kind::OtherNumber => {
            let place = random.below(numbers.len() as u64) as usize;
            numbers[place] = another(random, numbers[place]);
            packed(&numbers)
        }
        Kind::Count => {
            numbers.extend(count(random));
            packed(&numbers)
        }
        Kind::Damaged => damaged(random, packed(&numbers)),
        Kind::Cut => {
            let mut bytes = packed(&numbers);
            bytes.truncate(random.below(bytes.len() as u64) as usize);
            bytes
        }
        _ => packed(&numbers),
    }
}

/// The numbers of a session that was played beside the reference.
fn played(random: &mut Random, kind: Kind) -> Vec<u64> {
    let shape = match kind {
        Kind::Crowded => Shape::Crowd,
        _ => random.weighted(&[(3, Shape::Canal), (6, Shape::Small), (3, Shape::Tight), (2, Shape::Wide)]),
    };
    let drawn = table(random, shape);
    let checked = drawn.check();
    let mut numbers = drawn.written();
    let mut play = Play::new(&checked, mood(random, kind));
    for _ in 0..rounds(random, kind) {
        let (record, accepted) = play.next(random);
        numbers.extend(record_numbers(&record));
        // A few records more show whether the program stops at a refusal.
        if !accepted && random.chance(3, 4) {
            break;
        }
    }
    numbers
}

fn rounds(random: &mut Random, kind: Kind) -> u64 {
    match kind {
        Kind::Long => random.between(300, 1500),
        Kind::Played => random.weighted(&[(1, 0), (6, 5), (6, 12), (4, 30), (1, 80)]),
        Kind::Crowded => random.between(6, 16),
        _ => random.between(0, 6),
    }
}

fn mood(random: &mut Random, kind: Kind) -> Mood {
    let late = (1 << 48) - 1 - random.below(400);
    let small = random.below(200);
    let middle = (1 << 32) - random.below(60);
    let first = random.weighted(&[(8, 0), (4, small), (2, middle), (2, late)]);
    match kind {
        Kind::Long => Mood { first: small, spoilt: 0, stray: 20, crowded: false },
        Kind::Crowded => Mood { first, spoilt: 20, stray: 20, crowded: true },
        _ => Mood { first, spoilt: 60, stray: 40, crowded: false },
    }
}

fn broken_table(random: &mut Random) -> Vec<u64> {
    let shape = random.pick(&[Shape::Canal, Shape::Small, Shape::Small, Shape::Tight, Shape::Wide]);
    let good = table(random, shape);
    let mut numbers = broken(random, good).written();
    // What may come after a table that is refused is never looked at.
    numbers.extend([0, 0, 3, 0, 0, 0]);
    numbers
}

pub(crate) fn packed(numbers: &[u64]) -> Vec<u8> {
    let mut bytes = Vec::new();
    for &number in numbers {
        push_number(number, &mut bytes).expect("a number below 2^63");
    }
    bytes
}

/// One number in a form that is refused, or at the edge of being refused.
fn bad_number(random: &mut Random, numbers: &[u64]) -> Vec<u8> {
    let place = random.below(numbers.len() as u64) as usize;
    let mut bytes = packed(&numbers[..place]);
    let mut number = packed(&numbers[place..=place]);
    let last = number.len() - 1;
    let ninth = random.pick(&[0x00, 0x01, 0x7f, 0x80, 0x81, 0xff]);
    match random.below(4) {
        0 => {
            number[last] |= 0x80;
            number.push(0);
        }
        1 => {
            number[last] |= 0x80;
            number.resize(8, 0x80);
            number.push(ninth);
        }
        2 => {
            number[last] |= 0x80;
            number.resize(9, 0x80);
            number.push(random.pick(&[0, 1]));
        }
        _ => number = vec![0xff; random.pick(&[1, 7, 8, 9, 10])],
    }
    bytes.extend(number);
    if random.chance(2, 3) {
        bytes.extend(packed(&numbers[place + 1..]));
    }
    bytes
}

/// Another value in place of a number: near it, a count's or a mark's edge, or far off.
fn another(random: &mut Random, number: u64) -> u64 {
    let near = random.near(number);
    let wide = random.wide();
    let edge = random.pick(&[0, 1, 2, 3, 15, 16, 17, 63, 64, 65, 66, 127, 128, 255, 256]);
    random.pick(&[near, edge, edge, wide])
}

/// The beginning of a record whose count lies at its limit, and too few numbers
/// after it: whether the count or the end of the bytes is refused tells where
/// the limit is.
fn count(random: &mut Random) -> Vec<u64> {
    let r = random.near((1 << 48) - 1);
    let mut numbers = match random.below(2) {
        0 => vec![r, random.between(63, 66)],
        _ => vec![r, 0, random.between(14, 17)],
    };
    numbers.resize(numbers.len() + random.below(4) as usize, 0);
    numbers
}

fn damaged(random: &mut Random, mut bytes: Vec<u8>) -> Vec<u8> {
    for _ in 0..random.between(1, 3) {
        let place = random.below(bytes.len() as u64) as usize;
        match random.below(4) {
            0 | 1 => bytes[place] ^= 1 << random.below(8),
            2 => drop(bytes.remove(place)),
            _ => bytes.insert(place, random.number() as u8),
        }
        if bytes.is_empty() {
            break;
        }
    }
    bytes
}

fn noise(random: &mut Random) -> Vec<u8> {
    (0..random.below(40)).map(|_| random.number() as u8).collect()
}
