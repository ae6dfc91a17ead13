//! Runs, all or nothing: read into a vector, and copied out once every offset was good.

use super::wholes::Start;
use super::{doubles, lent, lent_mut, period};
use answers::{Axis, Reading, RunAnswer};

fn run<T: Copy>(axis: Axis, source: &[T], destination: &mut [i64], read: impl Fn(&Start, T) -> Reading) -> RunAnswer {
    let refused = |number, place| RunAnswer { number, place, length: 0, rounded: 0 };
    let number = period::refusal(axis);
    if number != 0 {
        return refused(number, 0);
    }
    if destination.len() < source.len() {
        return refused(7, 0);
    }
    let start = Start::of(axis);
    let mut instants = Vec::with_capacity(source.len());
    let mut rounded = 0;
    for (place, &offset) in source.iter().enumerate() {
        let reading = read(&start, offset);
        if reading.number != 0 {
            return refused(reading.number, place);
        }
        rounded += (reading.exact == 0) as usize;
        instants.push(reading.instant);
    }
    destination[..source.len()].copy_from_slice(&instants);
    RunAnswer { number: 0, place: 0, length: source.len(), rounded }
}

/// # Safety
/// The pointers lend so many elements each, and do not overlap.
#[inline(never)]
pub unsafe extern "C" fn read_wholes(
    axis: Axis,
    source: *const i64,
    n: usize,
    destination: *mut i64,
    room: usize,
) -> RunAnswer {
    let (source, destination) = unsafe { (lent(source, n), lent_mut(destination, room)) };
    run(axis, source, destination, |start, offset| start.read(offset))
}

/// # Safety
/// As of `read_wholes`.
#[inline(never)]
pub unsafe extern "C" fn read_doubles(
    axis: Axis,
    source: *const f64,
    n: usize,
    destination: *mut i64,
    room: usize,
) -> RunAnswer {
    let (source, destination) = unsafe { (lent(source, n), lent_mut(destination, room)) };
    run(axis, source, destination, doubles::read)
}
