//! A units text that comes in fragments (document 02, CR 4): every byte takes the next place of the state, or finds none, and the end
//! puts the text together again and reads it.

use crate::axis::Axis;
use crate::calendar::Date;
use crate::refusal::Refusal;
use crate::units_text::{MOST_BYTES, read_units};
use answers::UnitsState;

/// The count of a text with more bytes than there are places.
const TOO_MANY: u32 = MOST_BYTES as u32 + 1;

pub fn start() -> UnitsState {
    UnitsState { count: 0, ended: 0, bytes: [0; MOST_BYTES] }
}

/// What every call asks of a state first.
fn tested(state: &UnitsState) -> Result<(), Refusal> {
    if state.ended == 0 && state.count <= TOO_MANY { Ok(()) } else { Err(Refusal::NotOpen) }
}

fn add_byte(state: &mut UnitsState, byte: u8) {
    match state.bytes.get_mut(state.count as usize) {
        Some(place) => {
            *place = byte;
            state.count += 1;
        }
        None => state.count = TOO_MANY,
    }
}

pub fn add(state: &mut UnitsState, fragment: &[u8]) -> Result<(), Refusal> {
    tested(state)?;
    fragment.iter().for_each(|&byte| add_byte(state, byte));
    Ok(())
}

/// As many bytes as are counted. The one that found no place is some byte: its text is too long, whatever it is.
fn text(state: &UnitsState) -> Vec<u8> {
    let byte = |place: u32| state.bytes.get(place as usize).copied().unwrap_or(b' ');
    (0..state.count).map(byte).collect()
}

pub fn end(state: &mut UnitsState, calendar_name: &[u8], cutover: Date) -> Result<Axis, Refusal> {
    tested(state)?;
    state.ended = 1;
    read_units(calendar_name, cutover, &text(state))
}
