//! Lists of leap seconds, and TT2000 read and written with them.

use crate::boundary;
use crate::refusal::{Refusal, RefusedRun, tested};
use answers::UtcFields;

/// A good list of leap seconds, with which TT2000, as CDF files hold it, is read as UTC and written.
///
///     let leap_seconds = LeapSeconds::new(&fs::read("data/leap_seconds_2017.bin")?)?;
///     let fields = leap_seconds.read(536_500_868_184_000_000)?;
///     assert_eq!(fields.to_string(), "2016-12-31T23:59:60.000000000Z");
///
/// A TT2000 is a number of nanoseconds from 2000-01-01T12:00:00 in Terrestrial Time.
#[derive(Clone, PartialEq, Eq, Hash, Debug)]
pub struct LeapSeconds {
    records: Vec<u8>,
}

/// All the results, or the first refusal and its place.
fn every<T>(results: impl Iterator<Item = Result<T, Refusal>>) -> Result<Vec<T>, RefusedRun> {
    results.enumerate().map(|(place, result)| result.map_err(|refusal| RefusedRun { refusal, place })).collect()
}

impl LeapSeconds {
    /// The list of some records of 16 bytes. A bad one is refused by every call, so one is made to see whether it is.
    pub fn new(records: &[u8]) -> Result<LeapSeconds, Refusal> {
        tested(boundary::read_tt2000(records, 0).number)?;
        Ok(LeapSeconds { records: records.to_vec() })
    }

    pub fn records(&self) -> &[u8] {
        &self.records
    }

    /// The UTC time of a TT2000. Before 1972 it is refused.
    pub fn read(&self, tt2000: i64) -> Result<UtcFields, Refusal> {
        let answer = boundary::read_tt2000(&self.records, tt2000);
        tested(answer.number).map(|()| answer.fields)
    }

    /// The TT2000 of a UTC time.
    pub fn write(&self, fields: UtcFields) -> Result<i64, Refusal> {
        let answer = boundary::write_tt2000(&self.records, fields);
        tested(answer.number).map(|()| answer.tt2000)
    }

    /// The UTC time of every number, or of none.
    pub fn read_run(&self, numbers: &[i64]) -> Result<Vec<UtcFields>, RefusedRun> {
        every(numbers.iter().map(|&tt2000| self.read(tt2000)))
    }

    /// The TT2000 of every UTC time, or of none.
    pub fn write_run(&self, fields: &[UtcFields]) -> Result<Vec<i64>, RefusedRun> {
        every(fields.iter().map(|&fields| self.write(fields)))
    }
}
