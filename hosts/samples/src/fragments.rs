//! Texts cut into fragments, and states of such texts: part of the way, ended, and damaged.

use crate::Random;
use crate::damage::any_bytes;
use crate::texts::{units, units_of_length};
use answers::UnitsState;

/// Lengths about that of the longest text, and greater ones.
const LENGTHS: [usize; 11] = [120, 127, 128, 129, 130, 131, 255, 256, 257, 384, 1000];

/// So many units texts of any kind, and so many of each length.
pub fn texts(random: &mut Random, of_any: u64, of_each_length: u64) -> Vec<Vec<u8>> {
    let any = (0..of_any).map(|_| None);
    let long = LENGTHS.iter().flat_map(|&length| (0..of_each_length).map(move |_| Some(length)));
    let mut text = |length| match length {
        Some(length) => units_of_length(random, length),
        None => units(random).1,
    };
    any.chain(long).map(&mut text).collect()
}

/// The text cut at some places, of which two may be the same.
pub fn cut<'a>(random: &mut Random, text: &'a [u8]) -> Vec<&'a [u8]> {
    let count = random.below(12);
    let mut places: Vec<usize> = (0..count).map(|_| random.below(text.len() as u64 + 1) as usize).collect();
    if random.one_in(2) {
        places.extend(places.clone());
    }
    places.sort_unstable();
    let ends = places.iter().copied().chain([text.len()]);
    let starts = [0].into_iter().chain(places.iter().copied());
    starts.zip(ends).map(|(start, end)| &text[start..end]).collect()
}

/// The text cut in two at every place, at some places, and into its bytes; each with the kind of the cut.
pub fn cuts<'a>(random: &mut Random, text: &'a [u8]) -> Vec<(&'static str, Vec<&'a [u8]>)> {
    let two = (0..=text.len()).map(|at| ("cut in two at every place", vec![&text[..at], &text[at..]]));
    let some = (0..4).map(|_| ("cut at some places, empty ones too", cut(random, text)));
    let bytes = ("a byte at a time", text.chunks(1).collect());
    two.chain(some).chain([bytes]).collect()
}

/// A fragment to follow what there is.
pub fn fragment(random: &mut Random) -> Vec<u8> {
    match random.below(8) {
        0 => vec![],
        1 => vec![random.bits() as u8],
        2 | 3 => units(random).1,
        4 => vec![b' '; random.pick(&[1000, 4096, 5000])],
        _ => any_bytes(random),
    }
}

/// The state of a text, with random bits in the places that are not counted.
fn open(random: &mut Random, text: &[u8]) -> UnitsState {
    let mut bytes = [(); 128].map(|()| random.bits() as u8);
    bytes.iter_mut().zip(text).for_each(|(place, &byte)| *place = byte);
    UnitsState { count: text.len().min(129) as u32, ended: 0, bytes }
}

/// A state and its kind: most are such as no calls from a fresh one lead to.
pub fn state(random: &mut Random) -> (&'static str, UnitsState) {
    let text = units(random).1;
    let open = open(random, &text);
    let count = random.pick_or_below(&[130, 131, 255, 256, 257, 1 << 31, u32::MAX.into()], 1 << 32) as u32;
    let ended = random.pick_or_below(&[2, 3, 256, 1 << 16, 1 << 31, u32::MAX.into()], 1 << 32) as u32;
    match random.below(10) {
        0 => ("state, its count too great", UnitsState { count, ..open }),
        1 => ("state, ended neither 0 nor 1", UnitsState { ended, ..open }),
        2 => ("state with both faults", UnitsState { count, ended, ..open }),
        3 => ("state that has ended", UnitsState { ended: 1, ..open }),
        4 => ("state, its count 129", UnitsState { count: 129, ..open }),
        5 | 6 => ("state with any count up to 128", UnitsState { count: random.below(129) as u32, ..open }),
        _ => ("state with a text and other bytes", open),
    }
}
