//! Texts read and written, each in a lent buffer.

use crate::axes;
use crate::lent::Lender;
use crate::run::Run;
use answers::{CUTOVER_1582, Date};
use samples::{borders, cutovers, texts};
use second::boundary;
use second::calendar::calendar_named;
use std::fmt::{Debug, Formatter};
use uppinalo::boundary as archive;

const MOST: usize = 2000;

/// A calendar name, a cutover and a text.
pub struct Input<'a>(pub &'a [u8], pub Date, pub &'a [u8]);

impl Debug for Input<'_> {
    fn fmt(&self, out: &mut Formatter) -> std::fmt::Result {
        write!(out, "\"{}\" {:?} \"{}\"", self.0.escape_ascii(), self.1, self.2.escape_ascii())
    }
}

/// The call of the archive, its counterpart, and the number in an answer.
struct Calls<A> {
    archive: fn(&[u8], Date, &[u8]) -> A,
    second: fn(&[u8], Date, &[u8]) -> A,
    number: fn(&A) -> u32,
}

/// The code of the calendar of a name, or one that none has.
pub fn code(name: &[u8]) -> u32 {
    calendar_named(name).map_or(u32::MAX, |calendar| calendar.code())
}

/// Both read the text; nothing lent is changed.
fn one_text<A: PartialEq + Debug>(
    run: &mut Run,
    lenders: &mut [Lender; 2],
    kind: &'static str,
    input: Input,
    calls: &Calls<A>,
) {
    let [for_name, for_text] = lenders;
    let name = for_name.lend(input.0, &mut run.random);
    let text = for_text.lend(input.2, &mut run.random);
    run.with(code(input.0), input.1);
    let ours = (calls.archive)(name.buffer, input.1, text.buffer);
    let second = (calls.second)(input.0, input.1, input.2);
    run.judge(kind, (calls.number)(&second), &input, ours, second);
    let is_kept = *name.buffer == *input.0 && *text.buffer == *input.2 && name.is_intact() && text.is_intact();
    run.expect(kind, &input, is_kept, "a lent text or what lies beside it is changed");
}

/// Both read dates at the borders of their fields, after the start of a text.
fn at_borders<A: PartialEq + Debug>(run: &mut Run, lenders: &mut [Lender; 2], start: &str, calls: &Calls<A>) {
    for (calendar, date) in borders::dates(run.count(3, 60) as usize) {
        let (name, date) = borders::text(&mut run.random, calendar, date);
        let text = format!("{start}{date}");
        let input = Input(name.as_bytes(), CUTOVER_1582, text.as_bytes());
        one_text(run, lenders, "fields at their borders", input, calls);
    }
    for _ in 0..run.count(100_000, 2_000_000) {
        let calendar = if run.random.one_in(16) { run.random.below(6) as u32 } else { 0 };
        let cutover = cutovers::of_calendar(&mut run.random, calendar);
        let date = cutovers::date_about(&mut run.random, cutover);
        let (name, date) = borders::text(&mut run.random, calendar, date);
        let text = format!("{start}{date}");
        let input = Input(name.as_bytes(), cutover, text.as_bytes());
        one_text(run, lenders, "fields at their borders, near a cutover", input, calls);
    }
}

pub fn read_units(run: &mut Run) {
    let mut lenders = [Lender::with_room(MOST), Lender::with_room(MOST)];
    let calls = Calls { archive: archive::read_units, second: boundary::read_units, number: |answer| answer.number };
    for _ in 0..run.count(400_000, 10_000_000) {
        let name = texts::calendar_name(&mut run.random);
        let (kind, text) = texts::units(&mut run.random);
        let cutover = cutovers::of_calendar(&mut run.random, code(&name));
        one_text(run, &mut lenders, kind, Input(&name, cutover, &text), &calls);
    }
    at_borders(run, &mut lenders, "s since ", &calls);
    let null = unsafe { uppinalo::raw::uppinalo_read_units(std::ptr::null(), 0, CUTOVER_1582, std::ptr::null(), 0) };
    run.judge("empty, null pointers", 3, &"", null, boundary::read_units(b"", CUTOVER_1582, b""));
}

pub fn read_iso(run: &mut Run) {
    let mut lenders = [Lender::with_room(MOST), Lender::with_room(MOST)];
    let calls = Calls { archive: archive::read_iso, second: boundary::read_iso, number: |answer| answer.number };
    for _ in 0..run.count(400_000, 10_000_000) {
        let name = texts::calendar_name(&mut run.random);
        let (kind, text) = texts::iso(&mut run.random);
        let cutover = cutovers::of_calendar(&mut run.random, code(&name));
        one_text(run, &mut lenders, kind, Input(&name, cutover, &text), &calls);
    }
    at_borders(run, &mut lenders, "", &calls);
    let null = unsafe { uppinalo::raw::uppinalo_read_iso(std::ptr::null(), 0, CUTOVER_1582, std::ptr::null(), 0) };
    run.judge("empty, null pointers", 3, &"", null, boundary::read_iso(b"", CUTOVER_1582, b""));
}

/// An instant is written to a room of some length, which holds other bytes before.
fn one_writing(run: &mut Run, lender: &mut Lender, kind: &'static str, calendar: u32, cutover: Date, instant: i64) {
    run.with(calendar, cutover);
    let random = &mut run.random;
    let length = random.pick_or_below(&[0, 1, 10, 20, 26, 27, 27, 28, 28, 29, 40], 100) as usize;
    let before: Vec<u8> = (0..length).map(|_| random.bits() as u8).collect();
    let room = lender.lend(&before, random);
    let ours = archive::write_iso(calendar, cutover, instant, room.buffer);
    let mut expected = before;
    let second = boundary::write_iso(calendar, cutover, instant, &mut expected);
    let input = (calendar, cutover, instant, length);
    run.judge(kind, second.number, &input, ours, second);
    run.expect(kind, &input, *room.buffer == expected[..], "the room's bytes differ");
    run.expect(kind, &input, room.is_intact(), "what lies beside the room is changed");
}

pub fn write_iso(run: &mut Run) {
    let mut lender = Lender::with_room(MOST);
    for _ in 0..run.count(400_000, 10_000_000) {
        let calendar = run.random.below(6) as u32;
        let cutover = cutovers::of_calendar(&mut run.random, calendar);
        let instant = axes::instant(&mut run.random, calendar, cutover);
        one_writing(run, &mut lender, "in range, or just past it", calendar, cutover, instant);
        if run.random.one_in(8) {
            let past = axes::instant_past_range(&mut run.random, calendar);
            one_writing(run, &mut lender, "past the range", calendar, cutover, past);
        }
        if run.random.one_in(100) {
            let unknown = axes::unknown_code(&mut run.random, 6);
            one_writing(run, &mut lender, "unknown calendar", unknown, cutover, instant);
        }
    }
    let null = unsafe { uppinalo::raw::uppinalo_write_iso(0, CUTOVER_1582, 0, std::ptr::null_mut(), 0) };
    run.judge("no room, null pointer", 7, &0, null, boundary::write_iso(0, CUTOVER_1582, 0, &mut []));
}
