//! Faults in the reading of a units text in fragments.

use super::{chosen, dates};
use answers::{AxisAnswer, Date, UnitsState};
use second::boundary::{add_units, end_units, read_units, start_units};

const PLACES: u32 = 128;
const TOO_MANY: u32 = PLACES + 1;

/// The start, with the fault that is asked for.
pub fn start() -> UnitsState {
    match chosen() {
        "start_units_with_spaces" => UnitsState { bytes: [b' '; 128], ..start_units() },
        _ => start_units(),
    }
}

/// A fragment added, with the fault that is asked for.
pub fn add(state: &mut UnitsState, fragment: &[u8]) -> u32 {
    let before = *state;
    let number = match chosen() {
        "add_units_last_byte_lost" => add_units(state, &fragment[..fragment.len().saturating_sub(1)]),
        "add_units_empty_after_the_end_taken" if fragment.is_empty() => 0,
        "add_units_impossible_count_taken" => with(state, impossible_as_too_many, |state| add_units(state, fragment)),
        "add_units_ended_2_open" => with(state, ended_2_as_open, |state| add_units(state, fragment)),
        _ => add_units(state, fragment),
    };
    let total = before.count as usize + fragment.len();
    let is_past = number == 0 && total > PLACES as usize;
    match chosen() {
        "add_units_129th_byte_as_first" if is_past && before.count <= PLACES => {
            state.bytes[0] = fragment[(PLACES - before.count) as usize];
        }
        "add_units_count_stays_at_128" if is_past => state.count = PLACES,
        "add_units_count_grows_on" if is_past => state.count = total as u32,
        "add_units_count_in_a_byte" if is_past => state.count = total as u8 as u32,
        "add_units_long_fragment_dropped" if is_past => state.bytes = before.bytes,
        "add_units_and_clear" if number == 0 => state.bytes[(state.count as usize).min(128)..].fill(0),
        "add_units_changed_at_11" if number == 11 => state.ended = 1,
        "add_units_too_long_refused" if is_past => return 1,
        _ => {}
    }
    number
}

/// The end, with the fault that is asked for.
pub fn end(state: &mut UnitsState, name: &[u8], cutover: Date) -> AxisAnswer {
    let before = *state;
    let answer = match chosen() {
        "end_units_name_forgotten" => end_units(state, b"", cutover),
        "end_units_impossible_count_taken" => {
            with(state, impossible_as_too_many, |state| end_units(state, name, cutover))
        }
        "end_units_ended_2_open" => with(state, ended_2_as_open, |state| end_units(state, name, cutover)),
        "end_units_second_end_taken" if state.ended == 1 => {
            end_units(&mut UnitsState { ended: 0, ..before }, name, cutover)
        }
        _ => end_units(state, name, cutover),
    };
    match chosen() {
        "end_units_not_ended" => state.ended = before.ended,
        "end_units_refused_stays_open" if answer.number != 0 => *state = before,
        "end_units_changed_at_11" if answer.number == 11 => state.ended = 1,
        "end_units_and_clear" if answer.number != 11 => *state = UnitsState { ended: 1, ..start_units() },
        "end_units_2_before_1" if answer.number == 1 && read_units(name, cutover, b"").number == 2 => {
            return AxisAnswer { number: 2, ..answer };
        }
        "end_units_up_to_a_zero" if answer.number != 11 && before.count <= PLACES => {
            return read_units(name, cutover, before.bytes.split(|&byte| byte == 0).next().unwrap_or(b""));
        }
        _ => {}
    }
    let text = before.bytes.get(..before.count as usize).unwrap_or_default();
    dates::in_units("end_units", answer, name, cutover, text)
}

/// The call on the state as it is seen, where that one is open.
fn with<A>(state: &mut UnitsState, seen: fn(UnitsState) -> UnitsState, call: impl Fn(&mut UnitsState) -> A) -> A {
    let seen = seen(*state);
    if seen.ended == 0 && seen.count <= TOO_MANY {
        *state = seen;
    }
    call(state)
}

fn impossible_as_too_many(state: UnitsState) -> UnitsState {
    UnitsState { count: state.count.min(TOO_MANY), ..state }
}

fn ended_2_as_open(state: UnitsState) -> UnitsState {
    UnitsState { ended: (state.ended == 1).into(), ..state }
}
