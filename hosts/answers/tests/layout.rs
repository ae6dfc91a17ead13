//! The sizes of the structs and the places of their fields, as hosts/layout.c asserts them of include/uppinalo.h.

use answers::*;
use std::mem::offset_of;

#[test]
fn arguments() {
    assert_eq!(size_of::<Date>(), 16);
    assert_eq!([offset_of!(Date, month), offset_of!(Date, day)], [8, 12]);
    assert_eq!(size_of::<Axis>(), 40);
    assert_eq!([offset_of!(Axis, period), offset_of!(Axis, mode), offset_of!(Axis, reference)], [4, 8, 16]);
    assert_eq!(offset_of!(Axis, cutover), 24);
    assert_eq!(size_of::<Fields>(), 32);
    assert_eq!([offset_of!(Fields, month), offset_of!(Fields, day), offset_of!(Fields, hour)], [8, 12, 16]);
    assert_eq!([offset_of!(Fields, minute), offset_of!(Fields, second), offset_of!(Fields, microsecond)], [20, 24, 28]);
    assert_eq!(size_of::<UtcFields>(), 32);
    assert_eq!([offset_of!(UtcFields, month), offset_of!(UtcFields, day), offset_of!(UtcFields, hour)], [8, 12, 16]);
    assert_eq!(
        [offset_of!(UtcFields, minute), offset_of!(UtcFields, second), offset_of!(UtcFields, nanosecond)],
        [20, 24, 28]
    );
    assert_eq!(size_of::<UnitsState>(), 136);
    assert_eq!([offset_of!(UnitsState, ended), offset_of!(UnitsState, bytes)], [4, 8]);
}

#[test]
fn results() {
    assert_eq!((size_of::<AxisAnswer>(), offset_of!(AxisAnswer, axis)), (48, 8));
    assert_eq!(size_of::<Reading>(), 24);
    assert_eq!([offset_of!(Reading, instant), offset_of!(Reading, exact), offset_of!(Reading, days_back)], [8, 16, 20]);
    assert_eq!((size_of::<OffsetAnswer>(), offset_of!(OffsetAnswer, offset)), (16, 8));
    assert_eq!((size_of::<FieldsAnswer>(), offset_of!(FieldsAnswer, fields)), (40, 8));
    assert_eq!((size_of::<DateAnswer>(), offset_of!(DateAnswer, date)), (24, 8));
    assert_eq!((size_of::<DayAnswer>(), offset_of!(DayAnswer, day)), (16, 8));
    assert_eq!((size_of::<LengthAnswer>(), offset_of!(LengthAnswer, length)), (16, 8));
    assert_eq!(size_of::<RunAnswer>(), 32);
    assert_eq!(
        [offset_of!(RunAnswer, place), offset_of!(RunAnswer, length), offset_of!(RunAnswer, rounded)],
        [8, 16, 24]
    );
    assert_eq!((size_of::<UtcFieldsAnswer>(), offset_of!(UtcFieldsAnswer, fields)), (40, 8));
    assert_eq!((size_of::<Tt2000Answer>(), offset_of!(Tt2000Answer, tt2000)), (16, 8));
}

#[test]
fn zero_axis() {
    let zero = Axis { calendar: 0, period: 0, mode: 0, reference: 0, cutover: Date { year: 1582, month: 10, day: 15 } };
    assert_eq!(AxisAnswer::default(), AxisAnswer { number: 0, axis: zero });
}

#[test]
fn utc_fields_shown() {
    let fields = UtcFields { year: 2016, month: 12, day: 31, hour: 23, minute: 59, second: 60, nanosecond: 7 };
    assert_eq!(fields.to_string(), "2016-12-31T23:59:60.000000007Z");
    assert_eq!(UtcFields { year: -45, ..fields }.to_string(), "-0045-12-31T23:59:60.000000007Z");
}
