//! Texts damaged: bytes added, dropped and changed, texts cut, parts repeated or moved.

use crate::Random;

/// Bytes that the grammars know, for damage that is hard to see, and a few that they do not.
const BYTES: &[u8] = b"0123456789+-:.TZ zUutcCGgmMtsincedayrSINCE|x\t\0\xff";

fn byte(random: &mut Random) -> u8 {
    if random.one_in(10) { random.bits() as u8 } else { random.pick(BYTES) }
}

fn place(random: &mut Random, length: usize) -> usize {
    random.below(length as u64) as usize
}

fn added(random: &mut Random, mut text: Vec<u8>) -> Vec<u8> {
    let at = place(random, text.len() + 1);
    text.insert(at, byte(random));
    text
}

fn dropped(random: &mut Random, mut text: Vec<u8>) -> Vec<u8> {
    text.remove(place(random, text.len()));
    text
}

fn changed(random: &mut Random, mut text: Vec<u8>) -> Vec<u8> {
    let at = place(random, text.len());
    text[at] = byte(random);
    text
}

fn cut(random: &mut Random, mut text: Vec<u8>) -> Vec<u8> {
    text.truncate(place(random, text.len()));
    text
}

fn turned(random: &mut Random, mut text: Vec<u8>) -> Vec<u8> {
    let at = place(random, text.len());
    text.rotate_left(at);
    text
}

/// A part of the text is repeated or left out.
fn parted(random: &mut Random, text: Vec<u8>) -> Vec<u8> {
    let (a, b) = (place(random, text.len() + 1), place(random, text.len() + 1));
    let (from, to) = (a.min(b), a.max(b));
    if random.one_in(2) { [&text[..to], &text[from..]].concat() } else { [&text[..from], &text[to..]].concat() }
}

/// The text with one change, and the kind of change.
pub fn damaged(random: &mut Random, text: Vec<u8>) -> (&'static str, Vec<u8>) {
    match random.below(6) {
        _ if text.is_empty() => ("a byte added", added(random, text)),
        0 => ("a byte added", added(random, text)),
        1 => ("a byte dropped", dropped(random, text)),
        2 => ("a byte changed", changed(random, text)),
        3 => ("cut short", cut(random, text)),
        4 => ("turned around", turned(random, text)),
        _ => ("a part twice, or left out", parted(random, text)),
    }
}

pub fn any_bytes(random: &mut Random) -> Vec<u8> {
    let length = random.pick_or_below(&[0, 1, 5, 20, 127, 128, 129, 300], 140);
    (0..length).map(|_| byte(random)).collect()
}
