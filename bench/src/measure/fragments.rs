//! Units text in fragments: whole texts, and what one fragment costs by its length and by what the state holds.

use super::texts::{TEXTS, axis_sum};
use super::{ELEMENTS, summed};
use crate::plain;
use crate::timing::{compare, print_missing};
use answers::{AxisAnswer, CUTOVER_1582, Date, UnitsState};
use uppinalo::{is_exported, raw};

#[derive(Clone, Copy)]
struct Calls {
    start: unsafe extern "C" fn() -> UnitsState,
    add: unsafe extern "C" fn(*mut UnitsState, *const u8, usize) -> u32,
    end: unsafe extern "C" fn(*mut UnitsState, *const u8, usize, Date) -> AxisAnswer,
}

const OURS: Calls =
    Calls { start: raw::uppinalo_start_units, add: raw::uppinalo_add_units, end: raw::uppinalo_end_units };
const PLAIN: Calls =
    Calls { start: plain::fragments::start_units, add: plain::fragments::add_units, end: plain::fragments::end_units };

/// Texts from the start to the end, in fragments of one length, of which the last may be shorter.
fn texts(label: &str, length: usize) {
    let inputs = TEXTS.repeat(512);
    let sum = |calls: Calls| {
        summed(&inputs, calls, |calls, (name, text)| unsafe {
            let mut state = (calls.start)();
            let mut add = |fragment: &[u8]| (calls.add)(&mut state, fragment.as_ptr(), fragment.len());
            let added = text.as_bytes().chunks(length).fold(0, |sum, fragment| sum | add(fragment));
            axis_sum((calls.end)(&mut state, name.as_ptr(), name.len(), CUTOVER_1582)) ^ added as u64
        })
    };
    compare(label, inputs.len(), || sum(OURS), || sum(PLAIN));
}

/// One fragment of a length after another, each added to a state that holds so many bytes. There are fewer of long ones, for a call
/// may look at all their bytes.
fn fragment(length: usize, held: u32) {
    let inputs = vec![held; ELEMENTS.min((1 << 29) / length.max(1))];
    let fragment = vec![b'd'; length];
    let sum = |calls: Calls| {
        let state = std::cell::Cell::new(UnitsState::default());
        summed(&inputs, calls, |calls, count| unsafe {
            let lent = state.as_ptr();
            (*lent).count = count;
            let number = (calls.add)(lent, fragment.as_ptr(), fragment.len());
            (number ^ (*lent).count) as u64 ^ ((*lent).bytes[127] as u64) << 32
        })
    };
    let label = format!("fragment added, length {length}, {held} bytes held");
    compare(&label, inputs.len(), || sum(OURS), || sum(PLAIN));
}

pub fn fragments() {
    if !["start_units", "add_units", "end_units"].into_iter().all(is_exported) {
        return print_missing("units text in fragments");
    }
    texts("units text in one fragment", 128);
    texts("units text in fragments of 8 bytes", 8);
    texts("units text in fragments of 1 byte", 1);
    for held in [0, 60] {
        for length in [0, 1, 8, 64] {
            fragment(length, held);
        }
    }
    for (length, held) in [(128, 0), (1 << 20, 0), (1 << 20, 128)] {
        fragment(length, held);
    }
}
