//! datetime64 arrays, all or nothing: a first loop without a branch tests every element, a second writes. The unit and the byte order
//! are known where each loop is compiled.

use super::datetime64_units::{Fraction, Months, Multiple, Reading, Writing, months};
use super::{lent, lent_mut};
use answers::RunAnswer;

const RECORD: usize = 8;

fn number<const IS_BIG: bool>(record: &[u8]) -> i64 {
    let bytes = record.try_into().expect("8 bytes");
    if IS_BIG { i64::from_be_bytes(bytes) } else { i64::from_le_bytes(bytes) }
}

fn record<const IS_BIG: bool>(number: i64) -> [u8; RECORD] {
    if IS_BIG { number.to_be_bytes() } else { number.to_le_bytes() }
}

fn refused(number: u32, place: usize) -> RunAnswer {
    RunAnswer { number, place, length: 0, rounded: 0 }
}

fn done(length: usize) -> RunAnswer {
    RunAnswer { length, ..Default::default() }
}

/// The first refusal, where there is one.
fn first_refusal(refusals: impl Iterator<Item = u32> + Clone) -> Option<RunAnswer> {
    if !refusals.clone().fold(false, |is_refused, number| is_refused | (number != 0)) {
        return None;
    }
    let (place, number) = refusals.enumerate().find(|(_, number)| *number != 0)?;
    Some(refused(number, place))
}

fn read<const IS_BIG: bool, U: Reading>(records: &[u8], destination: &mut [i64]) -> RunAnswer {
    let length = records.len() / RECORD;
    if !records.len().is_multiple_of(RECORD) {
        return refused(9, 0);
    }
    if destination.len() < length {
        return refused(7, 0);
    }
    let numbers = records.chunks_exact(RECORD).map(number::<IS_BIG>);
    if let Some(refused) = first_refusal(numbers.clone().map(U::refusal)) {
        return refused;
    }
    for (instant, number) in destination.iter_mut().zip(numbers) {
        *instant = U::instant(number);
    }
    done(length)
}

fn write<const IS_BIG: bool, U: Writing>(instants: &[i64], records: &mut [u8]) -> RunAnswer {
    if records.len() / RECORD < instants.len() {
        return refused(7, 0);
    }
    if let Some(refused) = first_refusal(instants.iter().map(|&instant| U::refusal(instant))) {
        return refused;
    }
    for (place, &instant) in records.chunks_exact_mut(RECORD).zip(instants) {
        place.copy_from_slice(&record::<IS_BIG>(U::number(instant)));
    }
    done(instants.len())
}

/// As `write`, for months: a test has most of the work in it, so what is written stands in a vector first.
fn write_months<const IS_BIG: bool, const LENGTH: i64>(instants: &[i64], records: &mut [u8]) -> RunAnswer {
    if records.len() / RECORD < instants.len() {
        return refused(7, 0);
    }
    let mut written = Vec::with_capacity(instants.len());
    for (place, &instant) in instants.iter().enumerate() {
        match months::<LENGTH>(instant) {
            Ok(number) => written.push(record::<IS_BIG>(number)),
            Err(number) => return refused(number, place),
        }
    }
    records[..RECORD * written.len()].copy_from_slice(written.as_flattened());
    done(written.len())
}

type Read = fn(&[u8], &mut [i64]) -> RunAnswer;
type Write = fn(&[i64], &mut [u8]) -> RunAnswer;

fn calls<const IS_BIG: bool, U: Reading + Writing>() -> Option<(Read, Write)> {
    Some((read::<IS_BIG, U>, write::<IS_BIG, U>))
}

fn of_code<const IS_BIG: bool>(code: &[u8]) -> Option<(Read, Write)> {
    match code {
        b"Y" => Some((read::<IS_BIG, Months<12>>, write_months::<IS_BIG, 12>)),
        b"M" => Some((read::<IS_BIG, Months<1>>, write_months::<IS_BIG, 1>)),
        b"W" => calls::<IS_BIG, Multiple<604_800_000_000>>(),
        b"D" => calls::<IS_BIG, Multiple<86_400_000_000>>(),
        b"h" => calls::<IS_BIG, Multiple<3_600_000_000>>(),
        b"m" => calls::<IS_BIG, Multiple<60_000_000>>(),
        b"s" => calls::<IS_BIG, Multiple<1_000_000>>(),
        b"ms" => calls::<IS_BIG, Multiple<1_000>>(),
        b"us" => calls::<IS_BIG, Multiple<1>>(),
        b"ns" => calls::<IS_BIG, Fraction<1_000>>(),
        b"ps" => calls::<IS_BIG, Fraction<1_000_000>>(),
        b"fs" => calls::<IS_BIG, Fraction<1_000_000_000>>(),
        b"as" => calls::<IS_BIG, Fraction<1_000_000_000_000>>(),
        _ => None,
    }
}

fn of_identifier(identifier: &[u8]) -> Option<(Read, Write)> {
    let (order, rest) = identifier.split_first()?;
    let code = rest.strip_prefix(b"M8[")?.strip_suffix(b"]")?;
    match order {
        b'<' => of_code::<false>(code),
        b'>' => of_code::<true>(code),
        _ => None,
    }
}

/// # Safety
/// The pointers lend so many elements each, and do not overlap.
#[inline(never)]
pub unsafe extern "C" fn read_datetime64(
    identifier: *const u8,
    identifier_len: usize,
    records: *const u8,
    records_len: usize,
    destination: *mut i64,
    room: usize,
) -> RunAnswer {
    let (records, destination) = unsafe { (lent(records, records_len), lent_mut(destination, room)) };
    match of_identifier(unsafe { lent(identifier, identifier_len) }) {
        Some((read, _)) => read(records, destination),
        None => refused(3, 0),
    }
}

/// # Safety
/// As of `read_datetime64`.
#[inline(never)]
pub unsafe extern "C" fn write_datetime64(
    identifier: *const u8,
    identifier_len: usize,
    instants: *const i64,
    n: usize,
    records: *mut u8,
    records_room: usize,
) -> RunAnswer {
    let (instants, records) = unsafe { (lent(instants, n), lent_mut(records, records_room)) };
    match of_identifier(unsafe { lent(identifier, identifier_len) }) {
        Some((_, write)) => write(instants, records),
        None => refused(3, 0),
    }
}
