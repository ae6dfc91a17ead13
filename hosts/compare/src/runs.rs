//! Runs: long and short, good and with refused offsets, with room enough or not; every lent byte afterwards.

use crate::axes;
use crate::lent::Lender;
use crate::run::Run;
use answers::{Axis, RunAnswer};
use samples::{Random, calendar_steps, doubles, wholes};
use second::boundary;
use std::fmt::Debug;
use uppinalo::boundary as archive;

const MOST: usize = 3000;

type Call<T> = fn(Axis, &[T], &mut [i64]) -> RunAnswer;

/// How offsets are drawn, or made of whole ones, the call of the archive, and its counterpart.
struct Kind<T> {
    offset: fn(&mut Random, Axis) -> T,
    of_whole: fn(i64) -> T,
    archive: Call<T>,
    second: Call<T>,
}

struct Input<T> {
    axis: Axis,
    source: Vec<T>,
    destination: Vec<i64>,
}

impl<T: Debug> Debug for Input<T> {
    fn fmt(&self, out: &mut std::fmt::Formatter) -> std::fmt::Result {
        let start = &self.source[..self.source.len().min(8)];
        write!(out, "{:?}, {} offsets from {start:?} on, room {}", self.axis, self.source.len(), self.destination.len())
    }
}

fn length(random: &mut Random) -> usize {
    let most = random.pick(&[1, 4, 20, 200, MOST as u64]);
    random.below(most + 1) as usize
}

/// Lends the run, reads it by both, and looks at every lent byte.
fn one_run<T: Copy + PartialEq + Debug>(
    run: &mut Run,
    lenders: &mut [Lender; 2],
    kind: &'static str,
    input: Input<T>,
    calls: &Kind<T>,
) {
    let [from, to] = lenders;
    run.on(input.axis, input.source.len() as u64);
    let source = from.lend(&input.source, &mut run.random);
    let destination = to.lend(&input.destination, &mut run.random);
    let ours = (calls.archive)(input.axis, source.buffer, destination.buffer);
    let mut expected = input.destination.clone();
    let second = (calls.second)(input.axis, &input.source, &mut expected);
    run.judge(kind, second.number, &input, ours, second);
    let is_kept = bits(source.buffer) == bits(&input.source);
    run.expect(kind, &input, is_kept && source.is_intact(), "the source or what lies beside it is changed");
    run.expect(kind, &input, *destination.buffer == expected[..], "the destination differs");
    run.expect(kind, &input, destination.is_intact(), "what lies beside the destination is changed");
}

/// The elements as bytes, so that NaNs are compared too.
fn bits<T: Copy>(elements: &[T]) -> &[u8] {
    unsafe { std::slice::from_raw_parts(elements.as_ptr().cast(), size_of_val(elements)) }
}

fn runs<T: Copy + PartialEq + Debug>(run: &mut Run, count: u64, calls: &Kind<T>) {
    let mut lenders = [Lender::with_room(8 * MOST), Lender::with_room(8 * (MOST + 64))];
    for _ in 0..count {
        let random = &mut run.random;
        let (axis_kind, axis) = axes::axis(random);
        let (kind, source) = source(random, axis, calls);
        let (room_kind, room) = room(random, source.len());
        let destination = (0..room).map(|_| random.bits() as i64).collect();
        let kind = if axis_kind.starts_with("axis") { axis_kind } else { room_kind.unwrap_or(kind) };
        one_run(run, &mut lenders, kind, Input { axis, source, destination }, calls);
    }
    for _ in 0..count / 4 {
        let random = &mut run.random;
        let (axis, offset) = calendar_steps::about_a_cutover(random);
        let source: Vec<T> =
            (0..length(random).min(20)).map(|_| (calls.of_whole)(offset + random.between(-2, 2))).collect();
        let destination = source.iter().map(|_| random.bits() as i64).collect();
        one_run(run, &mut lenders, "months to about the dropped dates", Input { axis, source, destination }, calls);
    }
}

/// A destination's room: most often as much as is needed, or more.
fn room(random: &mut Random, length: usize) -> (Option<&'static str>, usize) {
    match random.below(8) {
        0 if length > 0 => (Some("too little room"), random.below(length as u64) as usize),
        1 | 2 => (None, length + 1 + random.below(40) as usize),
        _ => (None, length),
    }
}

fn is_read<T: Copy>(axis: Axis, offset: T, call: Call<T>) -> bool {
    call(axis, &[offset], &mut [0]).number == 0
}

/// Offsets that are all read, or with some that are not.
fn source<T: Copy>(random: &mut Random, axis: Axis, calls: &Kind<T>) -> (&'static str, Vec<T>) {
    let length = length(random);
    let mut source: Vec<T> = (0..length).map(|_| (calls.offset)(random, axis)).collect();
    if length == 0 {
        return ("empty", source);
    }
    if random.one_in(4) {
        return ("any offsets", source);
    }
    source.retain(|&offset| is_read(axis, offset, calls.second));
    let last = source.len();
    match random.below(3) {
        0 => source.push((calls.offset)(random, axis)),
        1 => source.insert(random.below(last as u64 + 1) as usize, (calls.offset)(random, axis)),
        _ => return ("all read", source),
    }
    ("one that may be refused", source)
}

pub fn read_wholes(run: &mut Run) {
    let count = run.count(20_000, 400_000);
    let offset = |random: &mut Random, axis| wholes::offset(random, axis).1;
    let of_whole = |whole| whole;
    runs(run, count, &Kind { offset, of_whole, archive: archive::read_wholes, second: boundary::read_wholes });
    empty_runs(run, |axis| unsafe {
        uppinalo::raw::uppinalo_read_wholes(axis, std::ptr::null(), 0, std::ptr::null_mut(), 0)
    });
}

pub fn read_doubles(run: &mut Run) {
    let count = run.count(10_000, 200_000);
    let offset = |random: &mut Random, axis| doubles::double(random, axis).1;
    let of_whole = |whole| whole as f64;
    runs(run, count, &Kind { offset, of_whole, archive: archive::read_doubles, second: boundary::read_doubles });
    empty_runs(run, |axis| unsafe {
        uppinalo::raw::uppinalo_read_doubles(axis, std::ptr::null(), 0, std::ptr::null_mut(), 0)
    });
}

/// Null pointers lend nothing.
fn empty_runs(run: &mut Run, call: fn(Axis) -> RunAnswer) {
    for _ in 0..1000 {
        let axis = axes::axis(&mut run.random).1;
        let second = boundary::read_wholes(axis, &[], &mut []);
        run.judge("empty, null pointers", second.number, &axis, call(axis), second);
    }
}
