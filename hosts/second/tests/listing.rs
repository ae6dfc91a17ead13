//! The listing program's example of document 01 with the numbers of document 02, and the edges of its lines.

use second::listing::{answer, listing};

#[test]
fn example() {
    let input = b"standard|days since 1582-10-04|1\n\
        360_day|days since 2023-02-30|1\n\
        julian|days since 1900-02-29|0\n\
        noleap|days since 1900-02-29|0\n\
        |seconds since 1970-01-01|x3f80000000000000\n";
    let output = "1582-10-15T00:00:00.000000Z\n\
        2023-03-01T00:00:00.000000Z\n\
        1900-02-29T00:00:00.000000Z\n\
        refused 12\n\
        1970-01-01T00:00:00.007812Z rounded\n";
    assert_eq!(listing(input), output);
    assert_eq!(listing(&input[..input.len() - 1]), output);
}

#[test]
fn ends_of_the_input() {
    assert_eq!(listing(b""), "");
    assert_eq!(listing(b"\n"), "refused 3\n");
    assert_eq!(listing(b"\n\n"), "refused 3\nrefused 3\n");
    assert_eq!(listing(b"|s since 1970|0\r\n"), "refused 3\n");
}

#[test]
fn long_lines() {
    let line = |length: usize| {
        let mut line = b"|s since 1970|0".to_vec();
        line.splice(0..0, vec![b'y'; length - line.len()]);
        line
    };
    assert_eq!(answer(&line(255)), "refused 2");
    assert_eq!(answer(&line(256)), "refused 1");
    assert_eq!(answer(&[b'|'; 256]), "refused 1");
}

#[test]
fn forms_of_the_offset() {
    let of = |offset: &str| answer(format!("|millisec since 1970|{offset}").as_bytes());
    for good in ["0", "-0", "007", "-1", "0000000000000000001", "x0000000000000000", "x8000000000000000"] {
        assert!(of(good).ends_with('Z'), "{good}");
    }
    for past in ["9223372036854775807", "-9223372036854775808", "x7fefffffffffffff"] {
        assert_eq!(of(past), "refused 5", "{past}");
    }
    for bad in ["", "-", "+1", "--1", "1 ", " 1", "9223372036854775808", "-9223372036854775809", "00000000000000000000"]
    {
        assert_eq!(of(bad), "refused 3", "{bad}");
    }
    for bad in
        ["x", "x000000000000000", "x00000000000000000", "x3F80000000000000", "X3f80000000000000", "-x000000000000000"]
    {
        assert_eq!(of(bad), "refused 3", "{bad}");
    }
    assert_eq!(of("x7ff0000000000000"), "refused 8");
}

/// Bars and the offset's form come before all that the units can lack.
#[test]
fn order() {
    let long = "d".repeat(129);
    assert_eq!(answer(format!("tai|{long}|q").as_bytes()), "refused 3");
    assert_eq!(answer(format!("tai|{long}|0").as_bytes()), "refused 1");
    assert_eq!(answer(b"tai|q|0"), "refused 2");
    assert_eq!(answer(b"|q|0"), "refused 3");
    assert_eq!(answer(b"|days since 1970-13|x7ff0000000000000"), "refused 4");
    assert_eq!(answer(b"|days since 1970-02-30|x7ff0000000000000"), "refused 12");
    assert_eq!(answer(b"|days since 1582-10-05|x7ff0000000000000"), "refused 13");
    assert_eq!(answer(b"|days since 9999-12-31 23-01|x7ff0000000000000"), "refused 5");
    assert_eq!(answer(b"|calendar days since 1970|x7ff0000000000000"), "refused 8");
    assert_eq!(answer(b"|calendar days since 1970|x3fe0000000000000"), "refused 6");
    assert_eq!(answer(b"|calendar days since 1970|x43e0000000000000"), "refused 5");
    assert_eq!(answer(b"|days since 1970|"), "refused 3");
    assert_eq!(answer(b"|days since 1970|0|"), "refused 3");
}
