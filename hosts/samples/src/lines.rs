//! Lines for the listing program, without their newline.

use crate::Random;
use crate::damage::damaged;
use crate::texts::{calendar_name, units};

const EDGES: [&str; 8] = [
    "9223372036854775807",
    "-9223372036854775808",
    "9223372036854775808",
    "-0",
    "007",
    "x7ff0000000000000",
    "xfff8000000000001",
    "x43e0000000000000",
];

fn offset(random: &mut Random) -> String {
    let shift = random.below(64);
    match random.below(8) {
        0 => format!("x{:016x}", random.bits()),
        1 => format!("x{:016x}", (random.between(-100_000, 100_000) as f64 / 256.0).to_bits()),
        2 => random.pick(&EDGES).to_string(),
        3 => format!("{}{:019}", random.pick(&["", "-"]), random.bits() >> shift >> 1),
        4 => format!("{}", random.bits() as i64 >> shift),
        _ => format!("{}", random.between(-100_000, 100_000)),
    }
}

fn stretched(random: &mut Random, line: Vec<u8>) -> Vec<u8> {
    let target: usize = random.pick(&[254, 255, 256, 257, 1000]);
    let more = target.saturating_sub(line.len());
    [vec![b'y'; more], line].concat()
}

/// A line and its kind, which most often is that of its units text.
pub fn line(random: &mut Random) -> (&'static str, Vec<u8>) {
    let name = calendar_name(random);
    let (kind, units) = units(random);
    let line = [&name[..], &units, offset(random).as_bytes()].join(&b'|');
    let (kind, mut line) = match random.below(8) {
        0 => damaged(random, line),
        1 => ("length around 255", stretched(random, line)),
        _ => (kind, line),
    };
    line.retain(|&byte| byte != b'\n');
    (kind, line)
}
