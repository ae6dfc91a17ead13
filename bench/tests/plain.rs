//! The plain Rust that is timed against gives the second program's answers: no ratio is against a wrong program.

use answers::*;
use bench::plain;
use samples::{
    Random, borders, calendar_steps, cutovers, damage, datetime64, fragments, identifiers, instants, leap_seconds,
    tt2000,
};
use second::boundary;
use second::codes::date_numbers;
use std::fmt::Debug;

const COUNT: usize = 30_000;

/// Instants around the ends of the range and anywhere, with a code that no calendar has among the codes.
fn instant(random: &mut Random, calendar: u32) -> i64 {
    let known = calendar.min(5);
    match random.below(4) {
        0 => instants::first(known) + random.between(-3 * instants::DAY, 3 * instants::DAY),
        1 => instants::last(known) + random.between(-3 * instants::DAY, 3 * instants::DAY),
        2 => random.bits() as i64,
        _ => random.between(instants::first(known), instants::last(known)),
    }
}

fn axis(random: &mut Random) -> Axis {
    let calendar = random.below(6) as u32;
    let reference = match random.below(20) {
        0 => instant(random, calendar),
        _ => random.between(instants::first(calendar), instants::last(calendar)),
    };
    let cutover = cutovers::of_calendar(random, calendar);
    Axis { calendar, period: random.below(9) as u32, mode: random.below(2) as u32, reference, cutover }
}

fn double(random: &mut Random) -> f64 {
    match random.below(4) {
        0 => f64::from_bits(random.bits()),
        1 => random.between(-4000, 4000) as f64,
        2 => random.between(-1 << 40, 1 << 40) as f64 / 128.0,
        _ => random.between(-1 << 50, 1 << 50) as f64 / (1i64 << random.below(60)) as f64,
    }
}

#[test]
fn instants_and_days() {
    let mut random = Random::seeded(11);
    for _ in 0..COUNT {
        let calendar = random.below(7) as u32;
        let instant = instant(&mut random, calendar);
        one_instant(calendar, cutovers::of_calendar(&mut random, calendar), instant);
    }
}

fn one_instant(calendar: u32, cutover: Date, instant: i64) {
    assert_eq!(plain::clock::fields_of(calendar, cutover, instant), boundary::fields_of(calendar, cutover, instant));
    let day = instant.div_euclid(instants::DAY);
    let date = boundary::date_of_day_number(calendar, cutover, day);
    assert_eq!(plain::days::date_of_day(calendar, cutover, day), date, "{cutover:?}");
    let (mut ours, mut others) = ([7; 28], [7; 28]);
    let answer = unsafe { plain::iso::write_iso(calendar, cutover, instant, ours.as_mut_ptr(), 28) };
    assert_eq!(answer, boundary::write_iso(calendar, cutover, instant, &mut others));
    assert_eq!(ours, others);
}

fn one_date(calendar: u32, cutover: Date, date: Date) {
    let ours = plain::days::day_of_date(calendar, cutover, date);
    assert_eq!(ours, boundary::day_number_of_date(calendar, cutover, date), "{cutover:?} {date:?}");
}

/// Every cutover, allowed or not, with dates and instants about it and calendar months to what it drops.
#[test]
fn cutovers_of_standard() {
    let mut random = Random::seeded(21);
    for cutover in cutovers::triples() {
        let Some(found) = cutovers::allowed_at(cutover) else {
            one_date(0, cutover, cutover);
            continue;
        };
        let about = cutovers::date_about(&mut random, cutover);
        found.dropped().map(date_numbers).chain([cutover, about]).for_each(|date| one_date(0, cutover, date));
        let day = boundary::day_number_of_date(0, cutover, cutover).day;
        one_instant(0, cutover, day * instants::DAY + random.between(-1, 0));
        let (axis, offset) = calendar_steps::to_dropped_dates(cutover, 1 + random.below(31) as u32);
        read_whole(axis, offset);
    }
    for cutover in (0..300).map(|_| cutovers::good(&mut random)).collect::<Vec<_>>() {
        cutovers::dates_about(cutover).for_each(|date| one_date(0, cutover, date));
    }
}

#[test]
fn dates() {
    let mut random = Random::seeded(12);
    for _ in 0..COUNT {
        let any = random.between(-10_000, 10_000);
        let year = random.pick(&[1582, 0, -1, 10_000, any]);
        let date = Date { year, month: random.below(14) as u32, day: random.below(33) as u32 };
        let calendar = random.below(6) as u32;
        one_date(calendar, cutovers::of_calendar(&mut random, calendar), date);
    }
}

/// Mistyped, missing and dropped dates, and several faults at once, as dates, as fields and in texts.
#[test]
fn dates_at_borders() {
    let mut random = Random::seeded(18);
    for (calendar, date) in borders::dates(1) {
        let cutover = cutovers::of_calendar(&mut random, calendar);
        one_date(calendar, cutover, date);
        let axis = Axis { calendar, cutover, ..Default::default() };
        let fields = borders::fields(&mut random, date);
        assert_eq!(plain::writing::write_fields(axis, fields), boundary::write_fields(axis, fields), "{fields:?}");
        let (name, text) = borders::text(&mut random, calendar, date);
        read_units(name, cutover, &format!("s since {text}"));
        read_iso(name, cutover, &text);
    }
}

fn read_whole(axis: Axis, offset: i64) {
    assert_eq!(plain::wholes::read_whole(axis, offset), boundary::read_whole(axis, offset), "{axis:?} {offset}");
}

fn read_double(axis: Axis, x: f64) {
    assert_eq!(plain::doubles::read_double(axis, x), boundary::read_double(axis, x), "{axis:?} {x:e}");
}

#[test]
fn offsets() {
    let mut random = Random::seeded(13);
    for _ in 0..COUNT {
        let axis = axis(&mut random);
        read_whole(axis, random.bits() as i64 >> random.below(64));
        read_double(axis, double(&mut random));
    }
}

/// Months that have the reference's day, and months that lack it.
#[test]
fn steps_from_every_day() {
    for (calendar, year) in (0..6).flat_map(|calendar| calendar_steps::YEARS.map(|year| (calendar, year))) {
        for (axis, offset) in calendar_steps::from_days_of_year(calendar, CUTOVER_1582, year, 0) {
            read_whole(axis, offset);
            read_double(axis, offset as f64);
        }
    }
}

#[test]
fn writing() {
    let mut random = Random::seeded(14);
    for _ in 0..COUNT / 10 {
        let axis = axis(&mut random);
        let read = plain::wholes::read_whole(axis, random.bits() as i64 >> random.below(64));
        let instant =
            if read.number == 0 { read.instant + random.one_in(3) as i64 } else { instant(&mut random, axis.calendar) };
        assert_eq!(plain::writing::write_instant(axis, instant), boundary::write_instant(axis, instant), "{axis:?}");
        let fields = plain::clock::fields_of(axis.calendar, axis.cutover, instant).fields;
        assert_eq!(plain::writing::write_fields(axis, fields), boundary::write_fields(axis, fields), "{axis:?}");
    }
}

fn read_units(name: &str, cutover: Date, text: &str) {
    let answer = unsafe { plain::units::read_units(name.as_ptr(), name.len(), cutover, text.as_ptr(), text.len()) };
    assert_eq!(answer, boundary::read_units(name.as_bytes(), cutover, text.as_bytes()), "{name} {cutover:?} {text}");
}

fn read_iso(name: &str, cutover: Date, text: &str) {
    let answer = unsafe { plain::units::read_iso(name.as_ptr(), name.len(), cutover, text.as_ptr(), text.len()) };
    assert_eq!(answer, boundary::read_iso(name.as_bytes(), cutover, text.as_bytes()), "{name} {cutover:?} {text}");
}

#[test]
fn units_and_dates() {
    let mut random = Random::seeded(15);
    let starts =
        ["days since ", "calendar  mons SINCE ", "ss since ", "s since ", "secs since ", "CALENDAR yrs since  "];
    let dates = [
        "1970-01-01",
        "-1-2-29",
        "0",
        "1582-10-10",
        "1900-2-29",
        "9999-12-31",
        "-9999-1-1",
        "+5",
        "12345",
        "1970-13-1",
    ];
    let times = ["", " 0", "T23:59", " 24", " 1:2:3.045", "T0:0:60", " 7:8:9.", "T12:60"];
    let zones = ["", "Z", " utc", " +01:30", "-0130", "+24", "-00:60", " +1", "+01:", "  Z", "-23:59"];
    for _ in 0..COUNT {
        let name = random.pick(&["", "standard", "julian", "360_day", "noleap", "366_day", "ISO8601", "tai"]);
        let date = [&dates[..], &times, &zones].map(|list| random.pick(list)).concat();
        let cutover = cutovers::of_calendar(&mut random, 0);
        read_iso(name, cutover, &date);
        read_units(name, cutover, &[random.pick(&starts), &date].concat());
    }
}

/// A fragment added by both, or the end for both: the number and the axis, and the state after it.
fn add(state: &mut UnitsState, fragment: &[u8]) {
    let mut other = *state;
    let number = unsafe { plain::fragments::add_units(state, fragment.as_ptr(), fragment.len()) };
    assert_eq!(number, boundary::add_units(&mut other, fragment), "{other:?}");
    assert_eq!(*state, other);
}

fn end(state: &mut UnitsState, name: &[u8], cutover: Date) {
    let mut other = *state;
    let answer = unsafe { plain::fragments::end_units(state, name.as_ptr(), name.len(), cutover) };
    assert_eq!(answer, boundary::end_units(&mut other, name, cutover), "{other:?}");
    assert_eq!(*state, other);
}

#[test]
fn units_in_fragments() {
    let mut random = Random::seeded(17);
    for text in fragments::texts(&mut random, 100, 5) {
        for (_, cut) in fragments::cuts(&mut random, &text) {
            let mut state = plain::fragments::start_units();
            assert_eq!(state, boundary::start_units());
            cut.iter().for_each(|fragment| add(&mut state, fragment));
            let name = random.pick(&["standard", "360_day", "tai"]);
            end(&mut state, name.as_bytes(), cutovers::of_calendar(&mut random, 0));
        }
    }
    for _ in 0..COUNT {
        let mut state = fragments::state(&mut random).1;
        add(&mut state, &fragments::fragment(&mut random));
        let cutover = cutovers::any(&mut random);
        end(&mut state, b"julian", cutover);
        end(&mut state, b"", cutover);
    }
}

type ArrayCall<A, B> = unsafe extern "C" fn(*const u8, usize, *const A, usize, *mut B, usize) -> RunAnswer;

fn one_array<A, B: Clone + PartialEq + Debug>(
    call: ArrayCall<A, B>,
    second: fn(&[u8], &[A], &mut [B]) -> RunAnswer,
    name: &[u8],
    source: &[A],
    room: &[B],
) {
    let (mut ours, mut others) = (room.to_vec(), room.to_vec());
    let (from, to) = (source.as_ptr(), ours.as_mut_ptr());
    let answer = unsafe { call(name.as_ptr(), name.len(), from, source.len(), to, room.len()) };
    assert_eq!(answer, second(name, source, &mut others), "{}", name.escape_ascii());
    assert_eq!(ours, others);
}

/// Short arrays, with identifiers, lengths and rooms that fit or do not.
#[test]
fn datetime64_arrays() {
    let mut random = Random::seeded(16);
    for _ in 0..COUNT {
        let (name, of) = identifiers::types().swap_remove(random.below(26) as usize);
        let name = if random.one_in(20) { damage::damaged(&mut random, name).1 } else { name };
        let length = random.below(4);
        let numbers: Vec<i64> = (0..length).map(|_| datetime64::number(&mut random, of.unit).1).collect();
        let mut records = datetime64::records(of.order, &numbers);
        if random.one_in(20) {
            records.pop();
        }
        let room = random.pick(&[0, 2, 3, 3, 3, 5]);
        let read = plain::datetime64::read_datetime64;
        one_array(read, boundary::read_datetime64, &name, &records, &vec![7; room]);
        let instants: Vec<i64> = (0..length).map(|_| datetime64::instant(&mut random, of.unit).1).collect();
        let write = plain::datetime64::write_datetime64;
        one_array(write, boundary::write_datetime64, &name, &instants, &vec![7; 8 * room + 1]);
    }
}

fn read_tt2000(list: &[u8], number: i64) {
    let answer = unsafe { plain::tt2000::read_tt2000(list.as_ptr(), list.len(), number) };
    assert_eq!(answer, boundary::read_tt2000(list, number), "{number}");
}

fn write_tt2000(list: &[u8], fields: UtcFields) {
    let answer = unsafe { plain::tt2000::write_tt2000(list.as_ptr(), list.len(), fields) };
    assert_eq!(answer, boundary::write_tt2000(list, fields), "{fields}");
}

#[test]
fn tt2000_with_good_lists() {
    let mut random = Random::seeded(19);
    let any = (0..100).map(|_| leap_seconds::good(&mut random)).collect();
    for list in [leap_seconds::borders(), any].concat() {
        tt2000::edges(&list).into_iter().for_each(|number| read_tt2000(&list, number));
        for _ in 0..COUNT / 30 {
            read_tt2000(&list, tt2000::number(&mut random, &list).1);
            write_tt2000(&list, tt2000::fields(&mut random, &list).1);
        }
        tt2000::dates().for_each(|date| write_tt2000(&list, tt2000::at_borders(&mut random, date)));
    }
}

#[test]
fn tt2000_with_bad_lists() {
    let mut random = Random::seeded(20);
    let any = (0..COUNT).map(|_| leap_seconds::damaged(&mut random)).collect();
    for (_, list) in [leap_seconds::near(leap_seconds::PUBLISHED), any].concat() {
        read_tt2000(&list, random.bits() as i64);
        write_tt2000(&list, tt2000::fields(&mut random, leap_seconds::PUBLISHED).1);
    }
}
