//! Identifiers of datetime64 types, and texts near them.

use second::datetime64_type::{ByteOrder, Datetime64Type, UNITS};

/// The identifier of every unit in both byte orders, and the type that it names.
pub fn types() -> Vec<(Vec<u8>, Datetime64Type)> {
    let orders = [("<", ByteOrder::Little), (">", ByteOrder::Big)];
    let both = |(code, unit)| orders.map(|(mark, order)| (mark, code, Datetime64Type { order, unit }));
    let named = |(mark, code, of)| (format!("{mark}M8[{code}]").into_bytes(), of);
    UNITS.into_iter().flat_map(both).map(named).collect()
}

/// A text with the bytes from one place to another replaced.
fn replaced(text: &[u8], from: usize, to: usize, with: &[u8]) -> Vec<u8> {
    [&text[..from], with, &text[to..]].concat()
}

/// The text with any byte at any place, added or in another's place.
fn with_a_byte(text: &[u8]) -> impl Iterator<Item = (&'static str, Vec<u8>)> {
    let places = (0..=text.len()).flat_map(|at| (0..=255).map(move |byte: u8| (at, byte)));
    places.flat_map(move |(at, byte)| {
        let added = ("a byte added", replaced(text, at, at, &[byte]));
        let changed = ("a byte changed", replaced(text, at, text.len().min(at + 1), &[byte]));
        [added, changed]
    })
}

/// The text with a part left out or repeated: its beginnings and its ends are among these.
fn with_a_part(text: &[u8]) -> impl Iterator<Item = (&'static str, Vec<u8>)> {
    let parts = (0..text.len()).flat_map(|from| (from + 1..=text.len()).map(move |to| (from, to)));
    parts.flat_map(move |(from, to)| {
        let part = &text[from..to];
        let left_out = ("a part left out", replaced(text, from, to, b""));
        let twice = ("a part twice", replaced(text, from, from, part));
        [left_out, twice, ("long", replaced(text, from, from, &part.repeat(200)))]
    })
}

/// Other texts that name types, and those that NumPy takes in an identifier's place.
const OTHERS: [&str; 12] = [
    "",
    "M8",
    "M8[s]",
    "=M8[s]",
    "|M8[s]",
    "<m8[s]",
    "<M8",
    "<M8[25s]",
    "<M8[1s]",
    "datetime64[s]",
    "<i8",
    "<M8[generic]",
];

/// Texts that follow an identifier's grammar or nearly do, with their kinds.
pub fn near(identifier: &[u8]) -> Vec<(&'static str, Vec<u8>)> {
    let others = OTHERS.map(|text| ("other texts", text.as_bytes().to_vec()));
    with_a_byte(identifier).chain(with_a_part(identifier)).chain(others).collect()
}
