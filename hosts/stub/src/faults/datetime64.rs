//! Faults in the reading and the writing of datetime64 arrays.

use super::{DAY, chosen};
use answers::RunAnswer;
use second::boundary::{read_datetime64, write_datetime64};

const NOT_A_TIME: i64 = i64::MIN;

/// The reading, with the fault that is asked for.
pub fn read(identifier: &[u8], records: &[u8], destination: &mut [i64]) -> RunAnswer {
    match chosen() {
        "read_datetime64_byte_order_ignored" => read_datetime64(&little(identifier), records, destination),
        "read_datetime64_m8_taken" => read_datetime64(&upper(identifier), records, destination),
        "read_datetime64_not_a_time_as_date" => {
            let zero = |number| if number == NOT_A_TIME { 0 } else { number };
            read_datetime64(identifier, &changed(identifier, records, zero), destination)
        }
        "read_datetime64_not_a_time_as_number" => {
            let next = |number: i64| number.max(NOT_A_TIME + 1);
            read_datetime64(identifier, &changed(identifier, records, next), destination)
        }
        "read_datetime64_nanoseconds_cut" if identifier.ends_with(b"[ns]") => {
            let cut = |number| if number == NOT_A_TIME { number } else { number - number % 1000 };
            read_datetime64(identifier, &changed(identifier, records, cut), destination)
        }
        "read_datetime64_part_record_dropped" => {
            read_datetime64(identifier, &records[..records.len() / 8 * 8], destination)
        }
        "read_datetime64_7_before_9" => {
            let answer = read_datetime64(identifier, records, destination);
            let is_short = destination.len() < records.len() / 8;
            if answer.number == 9 && is_short { RunAnswer { number: 7, ..answer } } else { answer }
        }
        "read_datetime64_place_in_bytes" => in_bytes(read_datetime64(identifier, records, destination)),
        "read_datetime64_up_to_refusal" => {
            let answer = read_datetime64(identifier, records, destination);
            read_datetime64(identifier, &records[..8 * answer.place], destination);
            answer
        }
        _ => read_datetime64(identifier, records, destination),
    }
}

/// The writing, with the fault that is asked for.
pub fn write(identifier: &[u8], instants: &[i64], records: &mut [u8]) -> RunAnswer {
    let answer = write_datetime64(identifier, instants, records);
    match chosen() {
        "write_datetime64_byte_order_ignored" => write_datetime64(&little(identifier), instants, records),
        "write_datetime64_place_in_bytes" => in_bytes(answer),
        "write_datetime64_length_in_bytes" => RunAnswer { length: 8 * answer.length, ..answer },
        "write_datetime64_and_clear" if answer.number == 0 => {
            records[8 * answer.length..].fill(0);
            answer
        }
        "write_datetime64_up_to_refusal" => {
            write_datetime64(identifier, &instants[..answer.place], records);
            answer
        }
        "write_datetime64_time_of_day_dropped" if answer.number == 6 => {
            let days: Vec<i64> = instants.iter().map(|instant| instant.div_euclid(DAY) * DAY).collect();
            write_datetime64(identifier, &days, records)
        }
        "write_datetime64_wrapping" if answer.number == 6 && identifier.ends_with(b"[ns]") => {
            let wrapped: Vec<i64> = instants.iter().map(|instant| instant.wrapping_mul(1000) / 1000).collect();
            write_datetime64(identifier, &wrapped, records)
        }
        "write_datetime64_6_before_5" if answer.number == 5 && instants[answer.place] % DAY != 0 => {
            RunAnswer { number: 6, ..answer }
        }
        _ => answer,
    }
}

fn in_bytes(answer: RunAnswer) -> RunAnswer {
    RunAnswer { place: 8 * answer.place, ..answer }
}

/// The identifier of the same unit with the lowest byte first.
fn little(identifier: &[u8]) -> Vec<u8> {
    identifier.iter().map(|&byte| if byte == b'>' { b'<' } else { byte }).collect()
}

/// The identifier with `M8` for `m8`.
fn upper(identifier: &[u8]) -> Vec<u8> {
    identifier.iter().enumerate().map(|(at, &byte)| if (at, byte) == (1, b'm') { b'M' } else { byte }).collect()
}

/// The records with each number changed.
fn changed(identifier: &[u8], records: &[u8], change: impl Fn(i64) -> i64) -> Vec<u8> {
    let one = |record: &[u8]| match (<[u8; 8]>::try_from(record), identifier.starts_with(b">")) {
        (Err(_), _) => record.to_vec(),
        (Ok(bytes), true) => change(i64::from_be_bytes(bytes)).to_be_bytes().to_vec(),
        (Ok(bytes), false) => change(i64::from_le_bytes(bytes)).to_le_bytes().to_vec(),
    };
    records.chunks(8).flat_map(one).collect()
}
