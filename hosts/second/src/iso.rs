//! ISO text read and written (document 01, "The units text").

use crate::calendar::{Calendar, Date};
use crate::date_text::date;
use crate::instant::fields_of;
use crate::refusal::Refusal;
use crate::units_text::opened;
use crate::ways::complete;

pub fn read_iso(calendar_name: &[u8], cutover: Date, text: &[u8]) -> Result<i64, Refusal> {
    let calendar = opened(calendar_name, cutover, text)?;
    let written = complete(date(text)).pop().ok_or(Refusal::IllFormed)?;
    written.instant(calendar)
}

/// The one form in which an instant is written.
pub fn iso_text(calendar: Calendar, instant: i64) -> Result<String, Refusal> {
    let fields = fields_of(calendar, instant)?;
    let date = fields.date;
    let sign = if date.year < 0 { "-" } else { "" };
    Ok(format!(
        "{sign}{:04}-{:02}-{:02}T{:02}:{:02}:{:02}.{:06}Z",
        date.year.abs(),
        date.month,
        date.day,
        fields.hour,
        fields.minute,
        fields.second,
        fields.microsecond
    ))
}

/// The text is put at the start of the room; the bytes after it stay. Answers its length.
pub fn write_iso(calendar: Calendar, instant: i64, room: &mut [u8]) -> Result<usize, Refusal> {
    let text = iso_text(calendar, instant)?;
    let place = room.get_mut(..text.len()).ok_or(Refusal::NoRoom)?;
    place.copy_from_slice(text.as_bytes());
    Ok(text.len())
}
