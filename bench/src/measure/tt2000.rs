//! TT2000 read and written with the published list of leap seconds, which each call tests.

use super::{ELEMENTS, summed};
use crate::plain;
use crate::timing::{compare, print_missing};
use answers::{Tt2000Answer, UtcFields, UtcFieldsAnswer};
use samples::Random;
use samples::leap_seconds::PUBLISHED;
use uppinalo::{is_exported, raw};

type Read = unsafe extern "C" fn(*const u8, usize, i64) -> UtcFieldsAnswer;
type Write = unsafe extern "C" fn(*const u8, usize, UtcFields) -> Tt2000Answer;

fn read(label: &str, inputs: &[i64]) {
    let sum = |call: Read| {
        summed(inputs, call, |call, tt2000| {
            let UtcFieldsAnswer { number, fields } = unsafe { call(PUBLISHED.as_ptr(), PUBLISHED.len(), tt2000) };
            let clock = fields.hour ^ fields.minute ^ fields.second ^ fields.nanosecond;
            fields.year as u64 ^ (number ^ fields.month ^ fields.day ^ clock) as u64
        })
    };
    compare(label, inputs.len(), || sum(raw::uppinalo_read_tt2000), || sum(plain::tt2000::read_tt2000));
}

fn write(label: &str, inputs: &[UtcFields]) {
    let sum = |call: Write| {
        summed(inputs, call, |call, fields| {
            let Tt2000Answer { number, tt2000 } = unsafe { call(PUBLISHED.as_ptr(), PUBLISHED.len(), fields) };
            tt2000 as u64 ^ number as u64
        })
    };
    compare(label, inputs.len(), || sum(raw::uppinalo_write_tt2000), || sum(plain::tt2000::write_tt2000));
}

fn start_of_year(year: i64) -> i64 {
    let fields = UtcFields { year, month: 1, day: 1, ..Default::default() };
    unsafe { plain::tt2000::write_tt2000(PUBLISHED.as_ptr(), PUBLISHED.len(), fields) }.tt2000
}

fn fields_of(tt2000: i64) -> UtcFields {
    unsafe { plain::tt2000::read_tt2000(PUBLISHED.as_ptr(), PUBLISHED.len(), tt2000) }.fields
}

/// Any time of the years that are taken, and recent ones, after the last leap second; the list alone is tested where the time is refused.
pub fn conversions() {
    if !is_exported("read_tt2000") || !is_exported("write_tt2000") {
        return print_missing("TT2000");
    }
    let mut random = Random::seeded(19);
    for (first, last) in [(1972, 2030), (2017, 2026)] {
        let (start, end) = (start_of_year(first), start_of_year(last + 1));
        let inputs: Vec<i64> = (0..ELEMENTS).map(|_| random.between(start, end - 1)).collect();
        read(&format!("TT2000 read, {first}-{last}"), &inputs);
        let fields: Vec<UtcFields> = inputs.into_iter().map(fields_of).collect();
        write(&format!("TT2000 written, {first}-{last}"), &fields);
    }
    read("TT2000 refused with 15, the list tested alone", &[i64::MIN; ELEMENTS]);
}
