//! Buffers to lend: each ends, or begins, where memory that cannot be touched begins or ends, and on its other side lie
//! bytes whose change is noticed. A read or a write past that side of the buffer ends the process.

use samples::Random;
use std::ffi::{c_int, c_long, c_void};
use std::slice;

unsafe extern "C" {
    fn mmap(
        address: *mut c_void,
        length: usize,
        protection: c_int,
        flags: c_int,
        file: c_int,
        offset: c_long,
    ) -> *mut c_void;
    fn mprotect(address: *mut c_void, length: usize, protection: c_int) -> c_int;
}

const NO_ACCESS: c_int = 0;
const READ_AND_WRITE: c_int = 3;
const PRIVATE_AND_ANONYMOUS: c_int = 0x22;
const PAGE: usize = 4096;
const CANARY: u8 = 0xa5;
/// So many bytes beside the buffer are watched.
const WATCHED: usize = 64;

pub struct Lender {
    start: *mut u8,
    size: usize,
}

impl Lender {
    /// Has room for so many bytes.
    pub fn with_room(bytes: usize) -> Lender {
        let size = (bytes + WATCHED).next_multiple_of(PAGE);
        let whole = size + 2 * PAGE;
        unsafe {
            let pages = mmap(std::ptr::null_mut(), whole, NO_ACCESS, PRIVATE_AND_ANONYMOUS, -1, 0);
            assert!(pages as isize != -1, "mmap");
            let start = pages.cast::<u8>().add(PAGE);
            assert_eq!(mprotect(start.cast(), size, READ_AND_WRITE), 0, "mprotect");
            Lender { start, size }
        }
    }

    /// A buffer with these elements, at one side of the room or the other.
    pub fn lend<T: Copy + PartialEq>(&mut self, elements: &[T], random: &mut Random) -> Lent<'_, T> {
        let bytes = size_of_val(elements);
        assert!(bytes + WATCHED <= self.size);
        let end = self.size - bytes;
        let (at, watched) = if random.one_in(2) { (0, bytes) } else { (end, end - WATCHED) };
        unsafe {
            let watched = slice::from_raw_parts_mut(self.start.add(watched), WATCHED);
            watched.fill(CANARY);
            let buffer = slice::from_raw_parts_mut(self.start.add(at).cast::<T>(), elements.len());
            buffer.copy_from_slice(elements);
            Lent { buffer, watched }
        }
    }
}

/// A buffer, and the bytes beside it.
pub struct Lent<'a, T> {
    pub buffer: &'a mut [T],
    watched: &'a [u8],
}

impl<T> Lent<'_, T> {
    pub fn is_intact(&self) -> bool {
        self.watched.iter().all(|&byte| byte == CANARY)
    }
}
