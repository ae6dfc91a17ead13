//! Units texts in fragments: every cut, lengths about 128 bytes and greater, what comes after the end, and states as no calls leave
//! them. The end must also answer as the archive's own reading of the joined text.

use crate::run::Run;
use crate::states::{Calls, States};
use crate::texts::{Input, code};
use answers::{AxisAnswer, CUTOVER_1582, Date};
use samples::fragments::{cut, cuts, fragment, state, texts};
use samples::texts::calendar_name;
use samples::{borders, cutovers};
use second::boundary;
use std::ptr::null;
use uppinalo::{boundary as archive, raw};

const ADD: Calls<u32> = Calls {
    archive: |state, bytes, _| archive::add_units(state, bytes),
    second: |state, bytes, _| boundary::add_units(state, bytes),
    number: |&number| number,
};
const END: Calls<AxisAnswer> =
    Calls { archive: archive::end_units, second: boundary::end_units, number: |answer| answer.number };
/// Those with a null pointer to no bytes.
const ADD_NULL: Calls<u32> =
    Calls { archive: |state, _, _| unsafe { raw::uppinalo_add_units(state, null(), 0) }, ..ADD };
const END_NULL: Calls<AxisAnswer> =
    Calls { archive: |state, _, cutover| unsafe { raw::uppinalo_end_units(state, null(), 0, cutover) }, ..END };

pub fn start_units(run: &mut Run) {
    for _ in 0..run.count(100_000, 2_000_000) {
        let (_, mut other) = state(&mut run.random);
        archive::add_units(&mut other, &fragment(&mut run.random));
        archive::end_units(&mut other, b"", CUTOVER_1582);
        run.judge("after calls with another state", 0, &other, archive::start_units(), boundary::start_units());
    }
}

fn add_each(states: &mut States, kind: &'static str, fragments: &[&[u8]]) {
    states.state = boundary::start_units();
    for fragment in fragments {
        states.compare(kind, &ADD, fragment);
    }
}

fn add_after_the_end(states: &mut States) {
    let fragment = fragment(&mut states.run.random);
    states.compare("a fragment after the end", &ADD, &fragment);
    states.compare("an empty fragment after the end", &ADD, b"");
}

pub fn add_units(run: &mut Run) {
    let mut states = States::of(run);
    let (of_any, of_each_length) = (states.run.count(15_000, 300_000), states.run.count(8, 160));
    for text in texts(&mut states.run.random, of_any, of_each_length) {
        for (kind, fragments) in cuts(&mut states.run.random, &text) {
            add_each(&mut states, kind, &fragments);
        }
        boundary::end_units(&mut states.state, b"", CUTOVER_1582);
        add_after_the_end(&mut states);
    }
    for _ in 0..states.run.count(200_000, 4_000_000) {
        let (kind, state) = state(&mut states.run.random);
        let fragment = fragment(&mut states.run.random);
        states.state = state;
        states.compare(kind, &ADD, &fragment);
        states.compare("null pointer", &ADD_NULL, b"");
    }
}

/// One end, in the calendar of a name with a cutover for it.
fn one_end(states: &mut States, kind: &'static str, calls: &Calls<AxisAnswer>, name: &[u8]) -> AxisAnswer {
    states.cutover = cutovers::of_calendar(&mut states.run.random, code(name));
    states.run.with(code(name), states.cutover);
    states.compare(kind, calls, name)
}

/// The fragments and their end, and then more.
fn end(states: &mut States, kind: &'static str, fragments: &[&[u8]], name: &[u8]) {
    add_each(states, "fragments before the end", fragments);
    let answer = one_end(states, kind, &END, name);
    let text = fragments.concat();
    let is_same = answer == archive::read_units(name, states.cutover, &text);
    states.run.expect(kind, &Input(name, states.cutover, &text), is_same, "the joined text reads otherwise");
    let name = calendar_name(&mut states.run.random);
    one_end(states, "a second end", &END, &name);
    add_after_the_end(states);
}

/// A text with a date about a cutover, which the end is given.
fn end_about(states: &mut States, cutover: Date) {
    let date = cutovers::date_about(&mut states.run.random, cutover);
    let (name, date) = borders::text(&mut states.run.random, 0, date);
    let text = format!("days since {date}");
    let fragments = cut(&mut states.run.random, text.as_bytes());
    add_each(states, "fragments before the end", &fragments);
    states.cutover = cutover;
    states.run.with(0, cutover);
    states.compare("fields at their borders, near a cutover", &END, name.as_bytes());
}

pub fn end_units(run: &mut Run) {
    let mut states = States::of(run);
    let (of_any, of_each_length) = (states.run.count(4_000, 60_000), states.run.count(2, 30));
    for text in texts(&mut states.run.random, of_any, of_each_length) {
        for (kind, fragments) in cuts(&mut states.run.random, &text) {
            let name = calendar_name(&mut states.run.random);
            end(&mut states, kind, &fragments, &name);
        }
    }
    for (calendar, date) in borders::dates(states.run.count(1, 20) as usize) {
        let (name, date) = borders::text(&mut states.run.random, calendar, date);
        let text = format!("s since {date}");
        let fragments = cut(&mut states.run.random, text.as_bytes());
        end(&mut states, "fields at their borders", &fragments, name.as_bytes());
    }
    for _ in 0..states.run.count(50_000, 1_000_000) {
        let about = cutovers::of_calendar(&mut states.run.random, 0);
        end_about(&mut states, about);
    }
    for _ in 0..states.run.count(100_000, 1_500_000) {
        let (kind, state) = state(&mut states.run.random);
        let name = calendar_name(&mut states.run.random);
        states.state = state;
        one_end(&mut states, kind, &END, &name);
        states.state = state;
        one_end(&mut states, "null pointer", &END_NULL, b"");
    }
}
