//! The proved library's archive against the second program: the same inputs to both, for every call of the C boundary.
//!
//!     compare [--long] [CALL ..]
//!
//! Compares the calls named, or all that hosts/calls.txt lists. Prints how often each kind of input had each number for its
//! answer. Inputs are drawn from a seed, so every run has the same. The exit status is 1 where an answer or a lent byte differs.

mod arrays;
mod axes;
mod calendars;
mod datetime64;
mod fragments;
mod lent;
mod listing;
mod offsets;
mod run;
mod runs;
mod states;
mod texts;
mod tt2000;
mod writing;

use run::{Run, Scale};
use std::process::ExitCode;

type Comparison = (&'static str, fn(&mut Run));

const COMPARISONS: [Comparison; 20] = [
    ("date_of_day", calendars::date_of_day),
    ("day_of_date", calendars::day_of_date),
    ("fields_of", calendars::fields_of),
    ("write_iso", texts::write_iso),
    ("read_iso", texts::read_iso),
    ("read_units", texts::read_units),
    ("start_units", fragments::start_units),
    ("add_units", fragments::add_units),
    ("end_units", fragments::end_units),
    ("read_whole", offsets::read_whole),
    ("read_double", offsets::read_double),
    ("write_instant", writing::write_instant),
    ("write_fields", writing::write_fields),
    ("read_wholes", runs::read_wholes),
    ("read_doubles", runs::read_doubles),
    ("read_datetime64", datetime64::read_datetime64),
    ("write_datetime64", datetime64::write_datetime64),
    ("read_tt2000", tt2000::read_tt2000),
    ("write_tt2000", tt2000::write_tt2000),
    ("listing", listing::listing),
];

fn main() -> ExitCode {
    let words: Vec<String> = std::env::args().skip(1).collect();
    let scale = if words.iter().any(|word| word == "--long") { Scale::Long } else { Scale::Short };
    let named: Vec<&str> = words.iter().map(String::as_str).filter(|word| *word != "--long").collect();
    if let Some(word) = named.iter().find(|word| COMPARISONS.iter().all(|(call, _)| call != *word)) {
        println!("compare: no such call: {word}");
        return ExitCode::FAILURE;
    }
    let mut inputs = 0;
    let mut differences = 0;
    for (call, compare) in COMPARISONS {
        if !named.is_empty() && !named.contains(&call) {
            continue;
        }
        if !uppinalo::is_exported(call) {
            println!("{call}: not in hosts/calls.txt yet, not compared");
            continue;
        }
        let mut run = Run::of(call, scale);
        compare(&mut run);
        run.print();
        inputs += run.inputs();
        differences += run.differences();
    }
    println!("compare: {inputs} inputs, {differences} differences");
    if differences == 0 { ExitCode::SUCCESS } else { ExitCode::FAILURE }
}
