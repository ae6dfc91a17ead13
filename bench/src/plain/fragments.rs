//! Units text in fragments: a buffer that is filled by copying, and read at the end.

use super::{lent, units};
use answers::{AxisAnswer, Date, UnitsState};

const ROOM: usize = 128;

fn tested(state: &UnitsState) -> Result<(), u32> {
    if state.ended == 0 && state.count as usize <= ROOM + 1 { Ok(()) } else { Err(11) }
}

fn add(state: &mut UnitsState, fragment: &[u8]) -> Result<(), u32> {
    tested(state)?;
    let count = state.count as usize;
    let room = state.bytes.get_mut(count..).unwrap_or_default();
    let fits = fragment.len().min(room.len());
    room[..fits].copy_from_slice(&fragment[..fits]);
    state.count = count.saturating_add(fragment.len()).min(ROOM + 1) as u32;
    Ok(())
}

#[inline(never)]
pub extern "C" fn start_units() -> UnitsState {
    UnitsState::default()
}

/// # Safety
/// The state is lent to be changed, and so many bytes beside it to be read.
#[inline(never)]
pub unsafe extern "C" fn add_units(state: *mut UnitsState, fragment: *const u8, fragment_len: usize) -> u32 {
    unsafe { add(&mut *state, lent(fragment, fragment_len)) }.err().unwrap_or(0)
}

/// # Safety
/// As of `add_units`.
#[inline(never)]
pub unsafe extern "C" fn end_units(
    state: *mut UnitsState,
    name: *const u8,
    name_len: usize,
    cutover: Date,
) -> AxisAnswer {
    let (state, name) = unsafe { (&mut *state, lent(name, name_len)) };
    units::answer(tested(state).and_then(|()| {
        state.ended = 1;
        let text = state.bytes.get(..state.count as usize).ok_or(1u32)?;
        units::read(name, cutover, text)
    }))
}
