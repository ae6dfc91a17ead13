//! Lists of leap seconds: the published one, good ones of any length with near and far days, and damaged ones.

use crate::Random;
use crate::damage::any_bytes;

pub const PUBLISHED: &[u8] = include_bytes!("../../../data/leap_seconds_2017.bin");

const RECORD: usize = 16;
const NUMBER: usize = RECORD / 2;
const MOST_RECORDS: i64 = 64;
const FIRST_DAY: i64 = 730;
/// 2292-04-11, the day of the greatest TT2000.
const LAST_DAY: i64 = 117_709;

/// The list with these days after the first.
pub fn list(days: &[i64]) -> Vec<u8> {
    let record = |(day, count): (&i64, i64)| [day.to_le_bytes(), count.to_le_bytes()];
    [&[FIRST_DAY], days].concat().iter().zip(10..).flat_map(record).flatten().collect()
}

/// The days of the records after the first.
pub fn days(list: &[u8]) -> Vec<i64> {
    let day = |record: &[u8]| i64::from_le_bytes(record[..NUMBER].try_into().expect("eight bytes"));
    list.chunks(RECORD).skip(1).map(day).collect()
}

/// The list with so many records, those after the first on consecutive days from one on.
fn consecutive(records: i64, from: i64) -> Vec<u8> {
    list(&(0..records - 1).map(|place| from + place).collect::<Vec<i64>>())
}

/// A list of 64 records.
pub fn longest() -> Vec<u8> {
    consecutive(MOST_RECORDS, FIRST_DAY + 1)
}

/// Good lists at the borders of what is good: the published one, that of one record, those of consecutive days and of far ones.
pub fn borders() -> Vec<Vec<u8>> {
    let powers: Vec<i64> = (10..63).map(|power| 1 << power).collect();
    vec![
        PUBLISHED.to_vec(),
        PUBLISHED[..25 * RECORD].to_vec(),
        list(&[]),
        list(&[FIRST_DAY + 1]),
        longest(),
        consecutive(MOST_RECORDS, LAST_DAY - 31),
        consecutive(MOST_RECORDS, i64::MAX - 62),
        list(&[LAST_DAY]),
        list(&[LAST_DAY + 1]),
        list(&[i64::MAX]),
        list(&[2_932_897, i64::MAX - 1, i64::MAX]),
        list(&powers),
    ]
}

fn day(random: &mut Random) -> i64 {
    match random.below(6) {
        0 => random.between(FIRST_DAY + 1, FIRST_DAY + 40),
        1 => LAST_DAY + random.between(-20, 20),
        2 => (random.bits() >> 1 >> random.below(52)) as i64,
        3 => i64::MAX - random.below(40) as i64,
        _ => random.between(FIRST_DAY + 1, LAST_DAY),
    }
}

/// A good list.
pub fn good(random: &mut Random) -> Vec<u8> {
    let most = random.pick_or_below(&[0, 1, 27, 62, 63], MOST_RECORDS as u64);
    let mut days: Vec<i64> = (0..most).map(|_| day(random)).filter(|&day| day > FIRST_DAY).collect();
    days.sort();
    days.dedup();
    list(&days)
}

/// The list with a number changed, at its place from 0: days have even places and counts odd ones.
fn with_number(list: &[u8], place: usize, change: impl Fn(i64) -> i64) -> Vec<u8> {
    let mut changed = list.to_vec();
    let bytes = &mut changed[NUMBER * place..][..NUMBER];
    let number = i64::from_le_bytes((&*bytes).try_into().expect("eight bytes"));
    bytes.copy_from_slice(&change(number).to_le_bytes());
    changed
}

type Change = fn(i64) -> i64;

const CHANGES: [Change; 12] = [
    |number| number.wrapping_add(1),
    |number| number.wrapping_sub(1),
    |number| number.wrapping_neg(),
    |number| number.wrapping_add(1 << 32),
    |number| number.wrapping_add(1 << 8),
    |number| !number,
    i64::swap_bytes,
    |_| 0,
    |_| -1,
    |_| FIRST_DAY,
    |_| i64::MIN,
    |_| i64::MAX,
];

/// The list with every byte and every number changed, of every length, and with records moved; some of these are good.
pub fn near(list: &[u8]) -> Vec<(&'static str, Vec<u8>)> {
    let bytes = (0..list.len()).flat_map(|at| [1, 0x80, 0xff].map(|bits| (at, bits)));
    let byte = bytes.map(|(at, bits)| {
        let mut changed = list.to_vec();
        changed[at] ^= bits;
        ("list, a byte changed", changed)
    });
    let places = (0..list.len() / NUMBER).flat_map(|place| CHANGES.map(|change| (place, change)));
    let number = places.map(|(place, change)| ("list, a number changed", with_number(list, place, change)));
    let long = [list, list, list].concat();
    let length = (0..long.len()).map(|length| ("list of every length", long[..length].to_vec()));
    byte.chain(number).chain(length).chain(moved(list)).collect()
}

/// Records left out, given twice, and in another order.
fn moved(list: &[u8]) -> impl Iterator<Item = (&'static str, Vec<u8>)> {
    (0..list.len() / RECORD).flat_map(|place| {
        let (before, from) = list.split_at(RECORD * place);
        let (record, after) = from.split_at(RECORD);
        [
            ("list, a record left out", [before, after].concat()),
            ("list, a record twice", [before, record, from].concat()),
            ("list, a record moved", [before, after, record].concat()),
        ]
    })
}

/// A list of more than 64 records that all follow one another.
fn too_long(random: &mut Random) -> Vec<u8> {
    consecutive(random.pick(&[65, 65, 66, 128, 200]), FIRST_DAY + 1)
}

/// A list that most often is not good, and its kind.
pub fn damaged(random: &mut Random) -> (&'static str, Vec<u8>) {
    let list = good(random);
    let place = random.below((list.len() / NUMBER) as u64) as usize;
    match random.below(6) {
        0 => ("list, any bytes", any_bytes(random)),
        1 => ("list of more than 64 records", too_long(random)),
        2 => ("list, cut", list[..random.below(list.len() as u64) as usize].to_vec()),
        3 => ("list, bytes added", [&list[..], &any_bytes(random)].concat()),
        4 => {
            let any = random.bits() as i64;
            ("list, any number", with_number(&list, place, |_| any))
        }
        _ => ("list, a number changed", with_number(&list, place, random.pick(&CHANGES))),
    }
}
