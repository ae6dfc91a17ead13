//! Runs of offsets, read whole or not at all (document 01, "Numbers returned", on runs).

use crate::axis::Axis;
use crate::reading::{Reading, read_double, read_whole, tested};
use crate::refusal::Refusal;

#[derive(Clone, Copy, PartialEq, Eq, Debug)]
pub struct Counts {
    pub length: usize,
    pub rounded: usize,
}

/// A refused run, with the place of the offset at fault, or zero.
#[derive(Clone, Copy, PartialEq, Eq, Debug)]
pub struct Refused {
    pub refusal: Refusal,
    pub place: usize,
}

pub fn read_wholes(axis: Axis, source: &[i64], destination: &mut [i64]) -> Result<Counts, Refused> {
    read_run(axis, source, destination, |offset| read_whole(axis, offset))
}

pub fn read_doubles(axis: Axis, source: &[f64], destination: &mut [i64]) -> Result<Counts, Refused> {
    read_run(axis, source, destination, |offset| read_double(axis, offset))
}

fn read_run<T: Copy>(
    axis: Axis,
    source: &[T],
    destination: &mut [i64],
    read: impl Fn(T) -> Result<Reading, Refusal>,
) -> Result<Counts, Refused> {
    tested(axis).map_err(|refusal| Refused { refusal, place: 0 })?;
    if destination.len() < source.len() {
        return Err(Refused { refusal: Refusal::NoRoom, place: 0 });
    }
    let one = |(place, &offset)| read(offset).map_err(|refusal| Refused { refusal, place });
    let readings = source.iter().enumerate().map(one).collect::<Result<Vec<Reading>, Refused>>()?;
    let instants: Vec<i64> = readings.iter().map(|reading| reading.instant).collect();
    destination[..source.len()].copy_from_slice(&instants);
    let rounded = readings.iter().filter(|reading| !reading.exact).count();
    Ok(Counts { length: source.len(), rounded })
}
