//! The listing program against the second program's listing, on lines good and damaged, long and short.

use crate::run::Run;
use samples::{borders, lines};
use std::io::Write;
use std::path::{Path, PathBuf};
use std::process::{Command, Stdio};

/// target/bin/listing, or what UPPINALO_LISTING names.
fn program() -> PathBuf {
    let built = || Path::new(env!("CARGO_MANIFEST_DIR")).join("../../target/bin/listing");
    std::env::var_os("UPPINALO_LISTING").map_or_else(built, PathBuf::from)
}

/// What the program prints for an input.
fn printed(input: &[u8]) -> Vec<u8> {
    let mut child = Command::new(program())
        .stdin(Stdio::piped())
        .stdout(Stdio::piped())
        .spawn()
        .expect("target/bin/listing, which make listing builds");
    let mut stdin = child.stdin.take().expect("piped");
    let input = input.to_vec();
    let writer = std::thread::spawn(move || stdin.write_all(&input));
    let output = child.wait_with_output().expect("the program ends").stdout;
    writer.join().expect("no panic").expect("the program reads all its input");
    output
}

/// The number that a printed line shows.
fn number(line: &str) -> u32 {
    line.strip_prefix("refused ").map_or(0, |digit| digit.parse().unwrap_or(0))
}

pub fn listing(run: &mut Run) {
    let mut drawn = Vec::new();
    for _ in 0..run.count(200_000, 3_000_000) {
        drawn.push(lines::line(&mut run.random));
    }
    for (calendar, date) in borders::dates(run.count(1, 20) as usize) {
        let (name, date) = borders::text(&mut run.random, calendar, date);
        drawn.push(("fields at their borders", format!("{name}|s since {date}|0").into_bytes()));
    }
    let input: Vec<u8> = drawn.iter().flat_map(|(_, line)| line.iter().chain(b"\n")).copied().collect();
    let output = printed(&input);
    let mut rows = output.split(|&byte| byte == b'\n');
    for (kind, line) in &drawn {
        let second = second::listing::answer(line);
        let ours = String::from_utf8_lossy(rows.next().unwrap_or(b"(no line)")).into_owned();
        run.judge(kind, number(&second), &String::from_utf8_lossy(line), ours, second);
    }
    run.expect("all lines", &"", rows.eq([b""]), "more output than input, or a last line without its newline");
    whole_inputs(run);
}

/// Short inputs by themselves, most without a newline at their end.
fn whole_inputs(run: &mut Run) {
    for turn in 0..run.count(200, 2000) {
        let count = turn % 4;
        let mut input: Vec<u8> =
            (0..count).flat_map(|_| lines::line(&mut run.random).1.into_iter().chain([b'\n'])).collect();
        if run.random.one_in(2) {
            input.pop();
        }
        let second = second::listing::listing(&input);
        let ours = String::from_utf8_lossy(&printed(&input)).into_owned();
        run.judge("whole inputs of 0 to 3 lines", 0, &String::from_utf8_lossy(&input), ours, second);
    }
}
