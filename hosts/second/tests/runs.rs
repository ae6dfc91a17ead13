//! Runs: all or nothing, the place of the first refusal, and what stays in the destination. The codes of the boundary.

use answers::{Axis, CUTOVER_1582, Date, DayAnswer, Fields, Reading, RunAnswer};
use second::boundary::*;

const SECONDS: Axis = Axis { calendar: 0, period: 0, mode: 0, reference: 0, cutover: CUTOVER_1582 };

#[test]
fn success_keeps_what_lies_beyond() {
    let mut room = [7; 4];
    let answer = read_doubles(SECONDS, &[1.0, 1e-7, -0.25], &mut room);
    assert_eq!(answer, RunAnswer { number: 0, place: 0, length: 3, rounded: 1 });
    assert_eq!(room, [1_000_000, 0, -250_000, 7]);
    assert_eq!(read_wholes(SECONDS, &[2], &mut room[..1]), RunAnswer { length: 1, ..Default::default() });
    assert_eq!(room[0], 2_000_000);
}

#[test]
fn refusals() {
    let refused = |number, place| RunAnswer { number, place, length: 0, rounded: 0 };
    let mut room = [7; 3];
    assert_eq!(read_doubles(SECONDS, &[1.0, 1e300, f64::NAN], &mut room), refused(5, 1));
    assert_eq!(read_doubles(SECONDS, &[1.0, f64::NAN, 1e300], &mut room), refused(8, 1));
    assert_eq!(read_doubles(SECONDS, &[f64::NAN; 4], &mut room), refused(7, 0));
    assert_eq!(read_wholes(SECONDS, &[0, 0, i64::MAX], &mut room), refused(5, 2));
    assert_eq!(read_doubles(Axis { mode: 1, ..SECONDS }, &[1.0, 0.5], &mut room), refused(6, 1));
    assert_eq!(read_wholes(Axis { reference: i64::MAX, ..SECONDS }, &[0; 4], &mut room), refused(5, 0));
    assert_eq!(read_wholes(Axis { reference: i64::MAX, ..SECONDS }, &[], &mut []), refused(5, 0));
    assert_eq!(read_wholes(Axis { calendar: 6, period: 8, ..SECONDS }, &[0; 4], &mut room), refused(2, 0));
    assert_eq!(read_wholes(Axis { period: 8, reference: i64::MAX, ..SECONDS }, &[0; 4], &mut room), refused(3, 0));
    assert_eq!(read_wholes(Axis { mode: 2, ..SECONDS }, &[0; 4], &mut room), refused(3, 0));
    assert_eq!(room, [7; 3]);
}

#[test]
fn order_of_writing() {
    let fields = |year, month| Fields { year, month, day: 1, ..Default::default() };
    let days = Axis { period: 4, ..SECONDS };
    assert_eq!(write_fields(days, fields(1970, 1)).offset, 0);
    assert_eq!(write_fields(days, fields(10_000, 13)).number, 5);
    assert_eq!(write_fields(days, fields(i64::MIN, 1)).number, 5);
    assert_eq!(write_fields(days, fields(0, 1)).number, 12);
    assert_eq!(write_fields(days, fields(1970, u32::MAX)).number, 4);
    assert_eq!(write_fields(days, Fields { microsecond: 1, ..fields(1970, 1) }).number, 6);
    assert_eq!(write_fields(Axis { reference: i64::MIN, ..days }, fields(1970, 13)).number, 5);
    assert_eq!(write_instant(days, i64::MAX).number, 5);
    assert_eq!(write_instant(days, -1).number, 6);
    assert_eq!(write_instant(days, -86_400_000_000).offset, -1);
    assert_eq!(write_instant(Axis { calendar: 9, ..days }, i64::MAX).number, 2);
}

#[test]
fn dates_and_days() {
    assert_eq!(date_of_day_number(0, CUTOVER_1582, 2_932_896).date, Date { year: 9999, month: 12, day: 31 });
    assert_eq!(date_of_day_number(0, CUTOVER_1582, 2_932_897).number, 5);
    assert_eq!(date_of_day_number(7, CUTOVER_1582, i64::MAX).number, 2);
    assert_eq!(
        day_number_of_date(0, CUTOVER_1582, Date { year: 1582, month: 10, day: 10 }),
        DayAnswer { number: 13, day: 0 }
    );
    assert_eq!(day_number_of_date(0, CUTOVER_1582, Date { year: 10_000, month: 13, day: 1 }).number, 5);
    assert_eq!(fields_of(3, CUTOVER_1582, i64::MIN).number, 5);
    assert_eq!(read_iso(b"", CUTOVER_1582, b"1970-01-01"), Reading { exact: 1, ..Default::default() });
    assert_eq!(read_iso(b"", CUTOVER_1582, b"1970-02-30"), Reading { number: 12, ..Default::default() });
}
