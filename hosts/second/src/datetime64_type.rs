//! The type of a datetime64 array: the byte order of its records and their unit, as an identifier names them (document 02, CR 1).

use crate::refusal::Refusal;
use crate::ways::{Ways, complete, either, map, then, word};

#[derive(Clone, Copy, PartialEq, Eq, Debug)]
pub enum ByteOrder {
    Little,
    Big,
}

impl ByteOrder {
    /// The number of a record, which has 8 bytes.
    pub fn number(self, record: &[u8]) -> i64 {
        let bytes = record.try_into().expect("8 bytes");
        match self {
            ByteOrder::Little => i64::from_le_bytes(bytes),
            ByteOrder::Big => i64::from_be_bytes(bytes),
        }
    }

    pub fn record(self, number: i64) -> [u8; 8] {
        match self {
            ByteOrder::Little => number.to_le_bytes(),
            ByteOrder::Big => number.to_be_bytes(),
        }
    }
}

#[derive(Clone, Copy, PartialEq, Eq, Debug)]
pub enum Unit {
    Year,
    Month,
    /// So many microseconds.
    Fixed(i64),
    /// A number of these shows so many decimals of a microsecond.
    Decimals(u32),
}

pub const UNITS: [(&str, Unit); 13] = [
    ("Y", Unit::Year),
    ("M", Unit::Month),
    ("W", Unit::Fixed(604_800_000_000)),
    ("D", Unit::Fixed(86_400_000_000)),
    ("h", Unit::Fixed(3_600_000_000)),
    ("m", Unit::Fixed(60_000_000)),
    ("s", Unit::Fixed(1_000_000)),
    ("ms", Unit::Fixed(1_000)),
    ("us", Unit::Fixed(1)),
    ("ns", Unit::Decimals(3)),
    ("ps", Unit::Decimals(6)),
    ("fs", Unit::Decimals(9)),
    ("as", Unit::Decimals(12)),
];

#[derive(Clone, Copy, PartialEq, Eq, Debug)]
pub struct Datetime64Type {
    pub order: ByteOrder,
    pub unit: Unit,
}

fn order(text: &[u8]) -> Ways<'_, ByteOrder> {
    either(map(word(text, b"<"), |()| ByteOrder::Little), map(word(text, b">"), |()| ByteOrder::Big))
}

fn unit(text: &[u8]) -> Ways<'_, Unit> {
    UNITS.iter().flat_map(|&(code, unit)| map(word(text, code.as_bytes()), move |()| unit)).collect()
}

/// Every meaning that the grammar gives an identifier: none where it does not follow the grammar.
pub fn meanings(identifier: &[u8]) -> Vec<Datetime64Type> {
    let opened = then(order(identifier), |rest| word(rest, b"M8["));
    let closed = then(then(opened, unit), |rest| word(rest, b"]"));
    complete(map(closed, |(((order, ()), unit), ())| Datetime64Type { order, unit }))
}

pub fn type_named(identifier: &[u8]) -> Result<Datetime64Type, Refusal> {
    meanings(identifier).pop().ok_or(Refusal::IllFormed)
}
