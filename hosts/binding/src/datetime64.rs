//! datetime64 arrays, as NumPy and others store them: records of 8 bytes, of the type that an identifier such as `<M8[ns]` names.
//! Instants are those of `proleptic_gregorian`.

use crate::boundary;
use crate::refusal::{RefusedRun, tested};
use answers::RunAnswer;

/// The bytes of a record.
pub const RECORD: usize = 8;

fn records_of(answer: RunAnswer) -> Result<usize, RefusedRun> {
    let RunAnswer { number, place, length, .. } = answer;
    tested(number).map(|()| length).map_err(|refusal| RefusedRun { refusal, place })
}

/// Reads every record to its place of the destination, or none. Answers how many there are.
pub fn read(identifier: &str, records: &[u8], destination: &mut [i64]) -> Result<usize, RefusedRun> {
    records_of(boundary::read_datetime64(identifier.as_bytes(), records, destination))
}

/// Writes every instant as the record at its place, or none. Answers how many there are; the bytes after them stay.
pub fn write(identifier: &str, instants: &[i64], records: &mut [u8]) -> Result<usize, RefusedRun> {
    records_of(boundary::write_datetime64(identifier.as_bytes(), instants, records))
}
