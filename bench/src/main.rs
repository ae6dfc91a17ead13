//! Prints, for each call, the nanoseconds of the proved library and of plain Rust, and their ratio.
//! The words after the command choose what is measured; none choose all.

use bench::measure::{calendars, datetime64, fragments, listing, offsets, runs, texts, tt2000};
use bench::timing;

const MEASUREMENTS: [(&str, fn()); 15] = [
    ("dates", calendars::dates),
    ("days", calendars::days),
    ("fields", calendars::fields),
    ("reading", offsets::reading),
    ("doubles", runs::doubles),
    ("wholes", runs::wholes),
    ("iso", texts::iso),
    ("iso_read", texts::iso_read),
    ("units", texts::units),
    ("writing", offsets::writing),
    ("listing", listing::lines),
    ("growth", runs::growth),
    ("datetime64", datetime64::arrays),
    ("fragments", fragments::fragments),
    ("tt2000", tt2000::conversions),
];

fn main() {
    let words: Vec<String> = std::env::args().skip(1).collect();
    timing::print_head();
    for (name, run) in MEASUREMENTS {
        if words.is_empty() || words.iter().any(|word| word == name) {
            run();
        }
    }
}
