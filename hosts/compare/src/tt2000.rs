//! TT2000 read and written with lent lists of leap seconds, good and bad: around every leap second to the nanosecond, around 1972, at both
//! ends of 64 bits and anywhere. What is read must be written again, and what is written read again.

use crate::lent::Lender;
use crate::run::Run;
use answers::{Tt2000Answer, UtcFields, UtcFieldsAnswer};
use samples::Random;
use samples::leap_seconds::{PUBLISHED, borders, damaged, days, good, longest, near};
use samples::tt2000::{at_borders, dates, edges, fields, number};
use second::boundary;
use std::fmt::{Debug, Formatter};
use std::ptr::null;
use uppinalo::{boundary as archive, is_exported, raw};

const MOST_BYTES: usize = 6000;
/// So many inputs are tried with a list, which the second program walks through once.
const WITH_A_LIST: u64 = 50;

/// A list of leap seconds and what is read or written with it.
struct Input<'a, T>(&'a [u8], T);

impl<T: Debug> Debug for Input<'_, T> {
    fn fmt(&self, out: &mut Formatter) -> std::fmt::Result {
        let Input(list, given) = self;
        if !list.len().is_multiple_of(16) {
            return write!(out, "{given:?}, list \"{}\"", list.escape_ascii());
        }
        write!(out, "{given:?}, list of {} records, days {:?} after the first", list.len() / 16, days(list))
    }
}

/// A call of the archive, its counterpart, and the number in an answer.
struct Calls<T, A> {
    archive: fn(&[u8], T) -> A,
    second: fn(&[u8], T) -> A,
    number: fn(&A) -> u32,
}

const READ: Calls<i64, UtcFieldsAnswer> =
    Calls { archive: archive::read_tt2000, second: boundary::read_tt2000, number: |answer| answer.number };
const WRITE: Calls<UtcFields, Tt2000Answer> =
    Calls { archive: archive::write_tt2000, second: boundary::write_tt2000, number: |answer| answer.number };

/// The comparison of a call that is lent a list.
struct Lists<'a, T, A> {
    run: &'a mut Run,
    calls: Calls<T, A>,
    lender: Lender,
}

impl<'a, T: Copy + Debug, A: Copy + PartialEq + Debug> Lists<'a, T, A> {
    fn of(run: &'a mut Run, calls: Calls<T, A>) -> Lists<'a, T, A> {
        Lists { run, calls, lender: Lender::with_room(MOST_BYTES) }
    }

    /// Answers what the archive does.
    fn compare(&mut self, kind: &'static str, list: &[u8], given: T) -> A {
        let lent = self.lender.lend(list, &mut self.run.random);
        let input = Input(list, given);
        let ours = (self.calls.archive)(lent.buffer, given);
        let second = (self.calls.second)(list, given);
        self.run.judge(kind, (self.calls.number)(&second), &input, ours, second);
        let is_kept = *lent.buffer == *list && lent.is_intact();
        self.run.expect(kind, &input, is_kept, "the list or what lies beside it is changed");
        ours
    }

    /// Bad lists, and some that are near them and good.
    fn with_lists_near(&mut self, given: &[T]) {
        for (kind, list) in near(PUBLISHED).into_iter().chain(near(&longest())) {
            given.iter().for_each(|&given| {
                self.compare(kind, &list, given);
            });
        }
    }
}

fn one_number(lists: &mut Lists<i64, UtcFieldsAnswer>, kind: &'static str, list: &[u8], number: i64) {
    let UtcFieldsAnswer { number: refusal, fields } = lists.compare(kind, list, number);
    if refusal == 0 && is_exported("write_tt2000") {
        let back = archive::write_tt2000(list, fields);
        let is_same = back == Tt2000Answer { number: 0, tt2000: number };
        lists.run.expect(kind, &Input(list, number), is_same, "what was read is not written again");
    }
}

/// An input and its kind, drawn for a good list.
type Draw<T> = fn(&mut Random, &[u8]) -> (&'static str, T);

/// What is drawn with the published list, with any good one, and with bad ones.
fn drawn<T: Copy + Debug, A: Copy + PartialEq + Debug>(
    lists: &mut Lists<T, A>,
    draw: Draw<T>,
    one: fn(&mut Lists<T, A>, &'static str, &[u8], T),
) {
    for _ in 0..lists.run.count(400_000, 20_000_000) {
        let (kind, given) = draw(&mut lists.run.random, PUBLISHED);
        one(lists, kind, PUBLISHED, given);
    }
    for _ in 0..lists.run.count(4_000, 100_000) {
        let list = good(&mut lists.run.random);
        for _ in 0..WITH_A_LIST {
            let given = draw(&mut lists.run.random, &list).1;
            one(lists, "any good list", &list, given);
        }
    }
    for _ in 0..lists.run.count(50_000, 1_000_000) {
        let (kind, list) = damaged(&mut lists.run.random);
        let given = draw(&mut lists.run.random, PUBLISHED).1;
        lists.compare(kind, &list, given);
    }
}

pub fn read_tt2000(run: &mut Run) {
    let mut lists = Lists::of(run, READ);
    for (list, number) in borders().iter().flat_map(|list| edges(list).into_iter().map(move |number| (list, number))) {
        one_number(&mut lists, "edges, with lists at borders", list, number);
    }
    lists.with_lists_near(&[i64::MIN, 0]);
    drawn(&mut lists, number, one_number);
    let empty = unsafe { raw::uppinalo_read_tt2000(null(), 0, 0) };
    run.judge("empty list, null pointer", 14, &0, empty, boundary::read_tt2000(&[], 0));
}

fn one_writing(lists: &mut Lists<UtcFields, Tt2000Answer>, kind: &'static str, list: &[u8], fields: UtcFields) {
    let Tt2000Answer { number, tt2000 } = lists.compare(kind, list, fields);
    if number == 0 && is_exported("read_tt2000") {
        let is_same = archive::read_tt2000(list, tt2000) == UtcFieldsAnswer { number: 0, fields };
        lists.run.expect(kind, &Input(list, fields), is_same, "what was written is not read again");
    }
}

/// The fields of the numbers at the edges, and every date of some years at the borders of the clock.
fn written_at_borders(lists: &mut Lists<UtcFields, Tt2000Answer>) {
    for list in borders() {
        for number in edges(&list) {
            let read = boundary::read_tt2000(&list, number);
            one_writing(lists, "edges, with lists at borders", &list, read.fields);
        }
        for date in dates() {
            let fields = at_borders(&mut lists.run.random, date);
            one_writing(lists, "fields at their borders", &list, fields);
        }
    }
}

/// The end of February of every year of the other calls, at the ends of 64 bits and of some others.
fn ends_of_february(lists: &mut Lists<UtcFields, Tt2000Answer>) {
    let any: Vec<i64> = (0..5000).map(|_| lists.run.random.bits() as i64 >> lists.run.random.below(50)).collect();
    let ends = (i64::MIN..i64::MIN + 1000).chain(i64::MAX - 1000..=i64::MAX);
    for year in (-10_000..=10_000).chain(ends).chain(any) {
        for day in [28, 29, 30] {
            let fields = UtcFields { year, month: 2, day, ..Default::default() };
            one_writing(lists, "end of February", PUBLISHED, fields);
        }
    }
}

pub fn write_tt2000(run: &mut Run) {
    let mut lists = Lists::of(run, WRITE);
    written_at_borders(&mut lists);
    ends_of_february(&mut lists);
    let good_fields = boundary::read_tt2000(PUBLISHED, 0).fields;
    let impossible = UtcFields { month: 13, ..good_fields };
    lists.with_lists_near(&[good_fields, impossible]);
    drawn(&mut lists, fields, one_writing);
    let empty = unsafe { raw::uppinalo_write_tt2000(null(), 0, good_fields) };
    run.judge("empty list, null pointer", 14, &0, empty, boundary::write_tt2000(&[], good_fields));
}
