//! ISO text written.

use super::cutover::calendar;
use super::{clock, lent_mut};
use answers::{Date, Fields, LengthAnswer};

/// The last so many decimal digits of a number.
fn put(text: &mut [u8], mut number: u32) {
    for place in text.iter_mut().rev() {
        *place = b'0' + (number % 10) as u8;
        number /= 10;
    }
}

/// The text of fields, without its sign.
pub fn text_of(fields: Fields) -> [u8; 27] {
    let mut text = *b"0000-00-00T00:00:00.000000Z";
    put(&mut text[0..4], fields.year.unsigned_abs() as u32);
    put(&mut text[5..7], fields.month);
    put(&mut text[8..10], fields.day);
    put(&mut text[11..13], fields.hour);
    put(&mut text[14..16], fields.minute);
    put(&mut text[17..19], fields.second);
    put(&mut text[20..26], fields.microsecond);
    text
}

fn write(fields: Fields, room: &mut [u8]) -> LengthAnswer {
    let sign = (fields.year < 0) as usize;
    let length = 27 + sign;
    if room.len() < length {
        return LengthAnswer { number: 7, length: 0 };
    }
    room[0] = b'-';
    room[sign..length].copy_from_slice(&text_of(fields));
    LengthAnswer { number: 0, length }
}

/// # Safety
/// The pointer lends so many bytes.
#[inline(never)]
pub unsafe extern "C" fn write_iso(
    code: u32,
    cutover: Date,
    instant: i64,
    room: *mut u8,
    room_len: usize,
) -> LengthAnswer {
    match calendar(code, cutover) {
        Ok(calendar) if clock::is_in_range(code, instant) => {
            write(clock::fields(calendar, instant), unsafe { lent_mut(room, room_len) })
        }
        Ok(_) => LengthAnswer { number: 5, length: 0 },
        Err(number) => LengthAnswer { number, length: 0 },
    }
}
