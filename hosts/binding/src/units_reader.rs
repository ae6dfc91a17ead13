//! A units text that comes in fragments.

use crate::axis::Axis;
use crate::boundary;
use crate::calendar::or_of_1582;
use crate::refusal::{Refusal, tested};
use answers::{Date, UnitsState};
use std::io::{self, Write};

/// Reads a units text that comes in fragments of any lengths, cut anywhere, also within a character.
///
///     let mut reader = UnitsReader::new();
///     reader.add(b"days si");
///     reader.add(b"nce 1850-01-01");
///     let axis = reader.end("noleap", None)?;
///
/// It takes the fragments as bytes, by `add`, by `extend` or as a `Write`. Whatever they are, adding them succeeds, and `end` answers as
/// `Axis::of_units` does of the joined text. It takes the reader, so that nothing can be added after it, and `Refusal::NotOpen` is never
/// its answer: that one comes up only for a state that is lent to the calls of `boundary`.
#[derive(Clone, Debug)]
pub struct UnitsReader {
    state: UnitsState,
}

impl UnitsReader {
    pub fn new() -> UnitsReader {
        UnitsReader { state: boundary::start_units() }
    }

    pub fn add(&mut self, fragment: &[u8]) {
        tested(boundary::add_units(&mut self.state, fragment)).expect("a state that is open")
    }

    /// The axis of the text, in the calendar of a name with a cutover, or with that of 1582.
    pub fn end(mut self, calendar: &str, cutover: impl Into<Option<Date>>) -> Result<Axis, Refusal> {
        Axis::of_answer(boundary::end_units(&mut self.state, calendar.as_bytes(), or_of_1582(cutover)))
    }
}

impl Default for UnitsReader {
    fn default() -> UnitsReader {
        UnitsReader::new()
    }
}

impl<'a> Extend<&'a [u8]> for UnitsReader {
    fn extend<I: IntoIterator<Item = &'a [u8]>>(&mut self, fragments: I) {
        fragments.into_iter().for_each(|fragment| self.add(fragment));
    }
}

/// Every write takes the whole fragment and succeeds; there is nothing to flush.
impl Write for UnitsReader {
    fn write(&mut self, fragment: &[u8]) -> io::Result<usize> {
        self.add(fragment);
        Ok(fragment.len())
    }

    fn flush(&mut self) -> io::Result<()> {
        Ok(())
    }
}
