//! datetime64 arrays: identifiers, each unit and its ends, the order of refusals, and what stays in the room.

use answers::RunAnswer;
use second::boundary::{read_datetime64, write_datetime64};
use second::cutover::OF_1582;
use second::datetime64::{read_number, write_instant};
use second::datetime64_type::{UNITS, Unit, meanings};
use second::iso::read_iso;
use second::refusal::Refusal;

fn unit(code: &str) -> Unit {
    UNITS.iter().find(|(name, _)| *name == code).expect(code).1
}

fn at(text: &str) -> i64 {
    read_iso(b"proleptic_gregorian", OF_1582.first, text.as_bytes()).expect(text)
}

fn refused(number: u32, place: usize) -> RunAnswer {
    RunAnswer { number, place, length: 0, rounded: 0 }
}

fn done(length: usize) -> RunAnswer {
    RunAnswer { length, ..Default::default() }
}

fn little(numbers: &[i64]) -> Vec<u8> {
    numbers.iter().flat_map(|number| number.to_le_bytes()).collect()
}

#[test]
fn identifiers() {
    for (code, unit) in UNITS {
        for order in ["<", ">"] {
            let found = meanings(format!("{order}M8[{code}]").as_bytes());
            assert!(matches!(found[..], [kind] if kind.unit == unit), "{order} {code}");
        }
    }
    let others =
        ["", "<", "<M8", "<M8[", "<M8[]", "<M8[s", "M8[s]", "=M8[s]", "|M8[s]", "<m8[s]", "<M8[S]", "<M8[25s]"];
    let more =
        ["<M8[s] ", " <M8[s]", "<M8[s]]", "<M8[sm]", "<M8[mss]", "<M8[Ms]", "<>M8[s]", "<M8[d]", "<M4[s]", "<M8(s)"];
    for identifier in others.iter().chain(&more) {
        assert!(meanings(identifier.as_bytes()).is_empty(), "{identifier}");
    }
    assert!(meanings(&[b"<M8[", &[b's'; 1000][..], b"]"].concat()).is_empty());
}

/// A number of a unit, and the instant as which it reads and from which it is written.
#[track_caller]
fn both_ways(code: &str, number: i64, text: &str) {
    assert_eq!(read_number(unit(code), number), Ok(at(text)), "{number}");
    assert_eq!(write_instant(unit(code), at(text)), Ok(number), "{text}");
}

#[test]
fn every_unit() {
    for (code, _) in UNITS {
        both_ways(code, 0, "1970-01-01");
    }
    both_ways("Y", -1, "1969-01-01");
    both_ways("Y", 30, "2000-01-01");
    both_ways("Y", -1970, "0000-01-01");
    both_ways("M", -1, "1969-12-01");
    both_ways("M", 361, "2000-02-01");
    both_ways("W", -1, "1969-12-25");
    both_ways("D", 59, "1970-03-01");
    both_ways("h", -1, "1969-12-31T23");
    both_ways("m", 61, "1970-01-01T01:01");
    both_ways("s", -1, "1969-12-31T23:59:59");
    both_ways("ms", 1, "1970-01-01T00:00:00.001");
    both_ways("us", -1, "1969-12-31T23:59:59.999999");
    both_ways("ns", 1_000, "1970-01-01T00:00:00.000001");
    both_ways("ps", -1_000_000, "1969-12-31T23:59:59.999999");
    both_ways("fs", 1_000_000_000, "1970-01-01T00:00:00.000001");
    both_ways("as", -9_000_000_000_000_000_000, "1969-12-31T23:59:51");
}

#[test]
fn ends() {
    both_ways("Y", -11_969, "-9999-01-01");
    both_ways("Y", 8_029, "9999-01-01");
    both_ways("M", -143_628, "-9999-01-01");
    both_ways("M", 96_359, "9999-12-01");
    both_ways("D", 2_932_896, "9999-12-31");
    both_ways("us", 253_402_300_799_999_999, "9999-12-31T23:59:59.999999");
    both_ways("ns", 9_223_372_036_854_775_000, "2262-04-11T23:47:16.854775");
    for (code, past) in
        [("Y", 8_030), ("Y", -11_970), ("M", 96_360), ("D", 2_932_897), ("W", -624_513), ("W", i64::MAX)]
    {
        assert_eq!(read_number(unit(code), past), Err(Refusal::OutOfRange), "{code} {past}");
    }
    assert_eq!(read_number(unit("W"), -624_512), Ok(-624_512 * 604_800_000_000));
    for (code, unit) in UNITS {
        assert_eq!(read_number(unit, i64::MIN), Err(Refusal::NotATime), "{code}");
        assert_eq!(write_instant(unit, at("9999-12-31T23:59:59.999999") + 1), Err(Refusal::OutOfRange), "{code}");
        assert_eq!(write_instant(unit, at("-9999-01-01") - 1), Err(Refusal::OutOfRange), "{code}");
    }
}

#[test]
fn inexact() {
    for (code, number) in [("ns", 999), ("ns", i64::MIN + 1), ("ps", 1_000), ("fs", -999_999_999), ("as", i64::MAX)] {
        assert_eq!(read_number(unit(code), number), Err(Refusal::Inexact), "{code} {number}");
    }
    let others = [
        ("Y", "2000-02-01"),
        ("Y", "2000-01-01T00:00:00.000001"),
        ("M", "2000-02-02"),
        ("M", "2000-01-31T23:59:59.999999"),
        ("W", "1970-01-02"),
        ("D", "1969-12-31T12"),
        ("ms", "1970-01-01T00:00:00.000001"),
        ("ns", "2262-04-11T23:47:16.854776"),
        ("ns", "1677-09-21T00:12:43.145224"),
        ("as", "1970-01-01T00:00:10"),
        ("fs", "9999-12-31"),
    ];
    for (code, text) in others {
        assert_eq!(write_instant(unit(code), at(text)), Err(Refusal::Inexact), "{code} {text}");
    }
}

#[test]
fn order_of_reading() {
    let mut room = [7; 2];
    let nat = i64::MIN;
    assert_eq!(read_datetime64(b"<m8[s]", &[0; 33], &mut room), refused(3, 0));
    assert_eq!(read_datetime64(b"<M8[s]", &[0; 33], &mut room), refused(9, 0));
    assert_eq!(read_datetime64(b"<M8[s]", &little(&[nat; 3]), &mut room), refused(7, 0));
    assert_eq!(read_datetime64(b"<M8[s]", &little(&[0, nat]), &mut room), refused(10, 1));
    assert_eq!(read_datetime64(b"<M8[s]", &little(&[i64::MAX, nat]), &mut room), refused(5, 0));
    assert_eq!(read_datetime64(b"<M8[ns]", &little(&[0, 1]), &mut room), refused(6, 1));
    assert_eq!(room, [7; 2]);
    assert_eq!(read_datetime64(b"<M8[ns]", &little(&[-5_000]), &mut room), done(1));
    assert_eq!(room, [-5, 7]);
    assert_eq!(read_datetime64(b">M8[h]", &[0, 0, 0, 0, 0, 0, 0, 2], &mut room[1..]), done(1));
    assert_eq!(room, [-5, 7_200_000_000]);
    assert_eq!(read_datetime64(b">M8[Y]", &[], &mut []), done(0));
}

#[test]
fn order_of_writing() {
    let mut room = [7; 19];
    assert_eq!(write_datetime64(b"<M8[s] ", &[i64::MAX; 3], &mut room), refused(3, 0));
    assert_eq!(write_datetime64(b"<M8[s]", &[i64::MAX; 3], &mut room), refused(7, 0));
    assert_eq!(write_datetime64(b"<M8[s]", &[0, i64::MAX], &mut room), refused(5, 1));
    assert_eq!(write_datetime64(b"<M8[s]", &[1, i64::MIN], &mut room), refused(6, 0));
    assert_eq!(room, [7; 19]);
    assert_eq!(write_datetime64(b">M8[s]", &[1_000_000, -1_000_000], &mut room), done(2));
    assert_eq!(room, [0, 0, 0, 0, 0, 0, 0, 1, 255, 255, 255, 255, 255, 255, 255, 255, 7, 7, 7]);
    assert_eq!(write_datetime64(b"<M8[us]", &[258], &mut room[..8]), done(1));
    assert_eq!(room[..9], [2, 1, 0, 0, 0, 0, 0, 0, 255]);
    assert_eq!(write_datetime64(b"<M8[as]", &[], &mut []), done(0));
}
