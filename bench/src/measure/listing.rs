//! The listing program, from a file to a file, beside plain Rust that does the same.

use crate::plain;
use crate::timing::{compare, print_missing};
use samples::Random;
use std::fs::{self, File};
use std::io::{BufReader, BufWriter};
use std::path::{Path, PathBuf};
use std::process::Command;

const LINES: usize = 100_000;

const UNITS: [(&str, &str, i64); 4] = [
    ("standard", "days since 1850-01-01", 90_000),
    ("noleap", "hours since 1900-01-01 00:00:00", 1_000_000),
    ("proleptic_gregorian", "seconds since 1970-01-01T00:00:00Z", 2_000_000_000),
    ("360_day", "calendar months since 1930-01-30", 2_000),
];

/// Plain lines: whole offsets, and doubles with fractions.
fn plain_lines(random: &mut Random) -> String {
    let line = |at: usize| {
        let (name, units, most) = UNITS[at % UNITS.len()];
        let offset = random.between(0, most);
        if at % 8 == 1 {
            return format!("{name}|{units}|x{:016x}\n", (offset as f64 / 24.0).to_bits());
        }
        format!("{name}|{units}|{offset}\n")
    };
    (0..LINES).map(line).collect()
}

fn size_and_bytes(path: &Path) -> u64 {
    let bytes = fs::read(path).expect("an output that was written");
    bytes.iter().step_by(97).fold(bytes.len() as u64, |sum, &byte| sum.wrapping_mul(31).wrapping_add(byte as u64))
}

fn by_program(program: &Path, input: &Path, output: &Path) -> u64 {
    let (from, to) = (File::open(input).expect("the input"), File::create(output).expect("the output"));
    let status = Command::new(program).stdin(from).stdout(to).status().expect("the program runs");
    assert!(status.success());
    size_and_bytes(output)
}

fn by_plain_rust(input: &Path, output: &Path) -> u64 {
    let (from, to) = (File::open(input).expect("the input"), File::create(output).expect("the output"));
    let mut writer = BufWriter::with_capacity(65536, to);
    plain::listing::listing(BufReader::with_capacity(65536, from), &mut writer).expect("files that can be used");
    drop(writer);
    size_and_bytes(output)
}

/// The program's time holds its start, and reading back its output.
pub fn lines() {
    let target = Path::new(env!("CARGO_MANIFEST_DIR")).join("../target");
    let program = target.join("bin/listing");
    if !program.exists() {
        return print_missing("listing, plain lines");
    }
    let folder = target.join("bench");
    fs::create_dir_all(&folder).expect("a folder under target/");
    let [input, ours, other]: [PathBuf; 3] = ["lines", "ours", "plain"].map(|name| folder.join(name));
    fs::write(&input, plain_lines(&mut Random::seeded(7))).expect("a file under target/");
    compare("listing, plain lines", LINES, || by_program(&program, &input, &ours), || by_plain_rust(&input, &other));
}
