//! A units text in fragments: where it is cut, how long it gets, what comes after the end, and damaged states.

use answers::{AxisAnswer, CUTOVER_1582, UnitsState};
use second::boundary::{add_units, end_units, read_units, start_units};

/// A state to which fragments were added.
#[track_caller]
fn added(fragments: &[&[u8]]) -> UnitsState {
    let mut state = start_units();
    for fragment in fragments {
        assert_eq!(add_units(&mut state, fragment), 0);
    }
    state
}

fn refused(number: u32) -> AxisAnswer {
    AxisAnswer { number, ..Default::default() }
}

/// That every call refuses a state with 11 and keeps it.
#[track_caller]
fn not_open(state: UnitsState) {
    let mut kept = state;
    assert_eq!(add_units(&mut kept, b"s since 1970"), 11);
    assert_eq!(add_units(&mut kept, b""), 11);
    assert_eq!(end_units(&mut kept, b"noleap", CUTOVER_1582), refused(11));
    assert_eq!(end_units(&mut kept, b"tai", CUTOVER_1582), refused(11));
    assert_eq!(kept, state);
}

#[test]
fn start() {
    assert_eq!(start_units(), UnitsState { count: 0, ended: 0, bytes: [0; 128] });
}

#[test]
fn cut_anywhere() {
    let text = b"days since 1850-01-01";
    for cut in 0..=text.len() {
        let mut state = added(&[&text[..cut], b"", &text[cut..]]);
        assert_eq!((state.count, state.ended), (21, 0));
        assert_eq!(state.bytes[..21], *text);
        assert_eq!(state.bytes[21..], [0; 107]);
        let before = state;
        assert_eq!(end_units(&mut state, b"noleap", CUTOVER_1582), read_units(b"noleap", CUTOVER_1582, text));
        assert_eq!(state, UnitsState { ended: 1, ..before });
        not_open(state);
    }
    let bytes: Vec<&[u8]> = text.chunks(1).collect();
    assert_eq!(end_units(&mut added(&bytes), b"julian", CUTOVER_1582), read_units(b"julian", CUTOVER_1582, text));
    assert_eq!(end_units(&mut added(&[&text[..20]]), b"", CUTOVER_1582), read_units(b"", CUTOVER_1582, &text[..20]));
}

#[test]
fn no_bytes() {
    assert_eq!(end_units(&mut added(&[]), b"", CUTOVER_1582), refused(3));
    assert_eq!(end_units(&mut added(&[b"", b""]), b"tai", CUTOVER_1582), refused(2));
}

#[test]
fn refused_ends() {
    let cases: [(&[u8], &[u8], u32); 7] = [
        (b"tai", b"s since 1970", 2),
        (b"Tai", b"q", 2),
        (b"", b"q", 3),
        (b"360_day", b"s since 1970-01-32", 4),
        (b"360_day", b"s since 1970-01-31", 12),
        (b"", b"s since 1582-10-05", 13),
        (b"", b"s since 9999-12-31 23:00 -01:00", 5),
    ];
    for (name, text, number) in cases {
        let mut state = added(&[text]);
        let before = state;
        assert_eq!(end_units(&mut state, name, CUTOVER_1582), refused(number));
        assert_eq!(state, UnitsState { ended: 1, ..before });
        not_open(state);
    }
}

#[test]
fn lengths_about_128() {
    let text = format!("s since {:>121}", "1970");
    let text = text.as_bytes();
    assert_eq!(text.len(), 129);
    let fitting = [&text[..8], &text[9..]].concat();
    let mut full = added(&[&fitting[..100], &fitting[100..]]);
    assert_eq!((full.count, &full.bytes[..]), (128, &fitting[..]));
    let mut past = full;
    assert_eq!(end_units(&mut full, b"", CUTOVER_1582), read_units(b"", CUTOVER_1582, b"s since 1970"));
    assert_eq!(add_units(&mut past, b"Z"), 0);
    assert_eq!((past.count, &past.bytes[..]), (129, &fitting[..]));
    assert_eq!(end_units(&mut past, b"tai", CUTOVER_1582), refused(1));
    not_open(past);
    for cut in 0..=129 {
        let state = added(&[&text[..cut], &text[cut..]]);
        assert_eq!((state.count, &state.bytes[..]), (129, &text[..128]));
        assert_eq!(end_units(&mut { state }, b"", CUTOVER_1582), refused(1));
    }
    let long = added(&[&[b'y'; 100], &[b'z'; 5000], b"", b"s"]);
    assert_eq!((long.count, &long.bytes[..]), (129, &[[b'y'; 100].as_slice(), &[b'z'; 28]].concat()[..]));
}

#[test]
fn damaged_states() {
    let bytes = [b'7'; 128];
    for ended in [1, 2, 3, 1 << 31, u32::MAX] {
        not_open(UnitsState { count: 5, ended, bytes });
    }
    for count in [130, 131, 256, 1 << 31, u32::MAX] {
        not_open(UnitsState { count, ended: 0, bytes });
    }
    let mut state = UnitsState { count: 12, ended: 0, bytes };
    state.bytes[..12].copy_from_slice(b"s since 1970");
    let mut more = state;
    assert_eq!(end_units(&mut state, b"", CUTOVER_1582), read_units(b"", CUTOVER_1582, b"s since 1970"));
    assert_eq!(add_units(&mut more, b"-02"), 0);
    assert_eq!((more.count, &more.bytes[..15], &more.bytes[15..]), (15, &b"s since 1970-02"[..], &bytes[15..]));
    let mut past = UnitsState { count: 129, ended: 0, bytes };
    assert_eq!(add_units(&mut past, b"s since"), 0);
    assert_eq!(past, UnitsState { count: 129, ended: 0, bytes });
    assert_eq!(end_units(&mut past, b"", CUTOVER_1582), refused(1));
}
