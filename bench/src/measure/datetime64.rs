//! datetime64 arrays read and written. The room is written whole each time and not cleared between.

use super::ELEMENTS;
use crate::plain;
use crate::plain::cutover::PROLEPTIC_GREGORIAN;
use crate::timing::{compare, print_missing};
use answers::{Date, RunAnswer};
use samples::{Random, instants};
use std::fmt::Debug;
use std::hint::black_box;
use uppinalo::{is_exported, raw};

type Call<A, B> = unsafe extern "C" fn(*const u8, usize, *const A, usize, *mut B, usize) -> RunAnswer;

/// One array, and a sum of its answer and some of what is written.
fn sum<A, B: Copy + Into<i64>>(call: Call<A, B>, identifier: &str, source: &[A], room: &mut [B]) -> u64 {
    let (name, from, to) = (identifier.as_ptr(), source.as_ptr(), room.as_mut_ptr());
    let answer = unsafe { black_box(call)(name, identifier.len(), from, source.len(), to, room.len()) };
    let sum = room.iter().step_by(509).fold(0u64, |sum, &element| sum.wrapping_add(element.into() as u64));
    sum ^ answer.number as u64 ^ answer.length as u64
}

/// The two calls on an array, and what they write.
fn measure<A, B: Copy + Default + Into<i64> + PartialEq + Debug>(
    what: &str,
    identifier: &str,
    source: &[A],
    room: usize,
    [ours, plain]: [Call<A, B>; 2],
) -> Vec<B> {
    let (mut written, mut other) = (vec![B::default(); room], vec![B::default(); room]);
    let label = format!("datetime64 array {what}, {identifier}");
    let by_ours = || sum(ours, identifier, source, &mut written);
    compare(&label, ELEMENTS, by_ours, || sum(plain, identifier, source, &mut other));
    assert_eq!(written, other, "{label}: what is written differs");
    written
}

/// Instants of the years 1850 to 2100 that are a whole number of an identifier's unit.
fn whole_instants(identifier: &str) -> Vec<i64> {
    let any = instants::from_1850_to_2100(&mut Random::seeded(16), PROLEPTIC_GREGORIAN.code, ELEMENTS);
    let whole = |instant: i64| match identifier {
        "<M8[M]" => {
            let date = plain::clock::date_of(plain::clock::fields(PROLEPTIC_GREGORIAN, instant));
            plain::days::day(PROLEPTIC_GREGORIAN, Date { day: 1, ..date }) * instants::DAY
        }
        ">M8[s]" => instant - instant.rem_euclid(1_000_000),
        _ => instant,
    };
    any.into_iter().map(whole).collect()
}

pub fn arrays() {
    if !is_exported("read_datetime64") || !is_exported("write_datetime64") {
        return print_missing("datetime64 array");
    }
    for identifier in ["<M8[us]", "<M8[ns]", ">M8[s]", "<M8[M]"] {
        let instants = whole_instants(identifier);
        let writers = [raw::uppinalo_write_datetime64, plain::datetime64::write_datetime64];
        let records: Vec<u8> = measure("written", identifier, &instants, 8 * ELEMENTS, writers);
        let readers = [raw::uppinalo_read_datetime64, plain::datetime64::read_datetime64];
        assert_eq!(instants, measure("read", identifier, &records, ELEMENTS, readers), "{identifier}");
    }
}
