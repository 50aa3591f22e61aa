//! Memory lent to the call: what is lent ends where nothing can be read or written, so that a byte
//! taken from behind it ends the run instead of going unseen.

use std::ffi::{c_int, c_long, c_void};
use std::ptr;

extern "C" {
    fn mmap(
        address: *mut c_void,
        length: usize,
        protection: c_int,
        flags: c_int,
        file: c_int,
        offset: c_long,
    ) -> *mut c_void;
    fn mprotect(address: *mut c_void, length: usize, protection: c_int) -> c_int;
    fn munmap(address: *mut c_void, length: usize) -> c_int;
}

/// Linux on x86-64, the only machine that the static library is for.
const PAGE: usize = 4_096;
const READ_AND_WRITE: c_int = 1 | 2;
const NOTHING: c_int = 0;
const PRIVATE_AND_ANONYMOUS: c_int = 2 | 0x20;

/// A stretch of bytes in front of a page that nobody may touch.
pub struct Lent {
    begin: *mut u8,
    capacity: usize,
}

impl Lent {
    /// Room for so many bytes.
    pub fn new(bytes: usize) -> Lent {
        let capacity = bytes.div_ceil(PAGE) * PAGE;
        // A new mapping that nothing else refers to; its last page is then closed.
        unsafe {
            let flags = PRIVATE_AND_ANONYMOUS;
            let begin = mmap(ptr::null_mut(), capacity + PAGE, READ_AND_WRITE, flags, -1, 0);
            assert!(begin as isize != -1, "no memory to lend");
            let closed = mprotect(begin.cast::<u8>().add(capacity).cast(), PAGE, NOTHING);
            assert!(closed == 0, "the page behind lent memory stays open");
            Lent { begin: begin.cast(), capacity }
        }
    }

    /// The place of these bytes, put at the very end of the room, which grows where it must.
    pub fn put(&mut self, bytes: &[u8]) -> *mut u8 {
        if bytes.len() > self.capacity {
            *self = Lent::new(bytes.len());
        }
        // The bytes fit into the mapping, which is ours.
        unsafe {
            let place = self.begin.add(self.capacity - bytes.len());
            ptr::copy_nonoverlapping(bytes.as_ptr(), place, bytes.len());
            place
        }
    }

    /// The place of these numbers, put at the very end of the room.
    pub fn put_numbers(&mut self, numbers: &[i64]) -> *mut i64 {
        let bytes = unsafe {
            // The bytes of a slice of numbers.
            std::slice::from_raw_parts(numbers.as_ptr().cast(), size_of_val(numbers))
        };
        // The end of a page is aligned for numbers, and so is a whole number of them before it.
        self.put(bytes).cast()
    }

    /// The last bytes of the room.
    pub fn last(&self, length: usize) -> &[u8] {
        assert!(length <= self.capacity);
        // They lie in the mapping, which began as zeros.
        unsafe { std::slice::from_raw_parts(self.begin.add(self.capacity - length), length) }
    }

    /// The last numbers of the room.
    pub fn last_numbers(&self, length: usize) -> &[i64] {
        let bytes = self.last(length * size_of::<i64>());
        // The end of a page is aligned for numbers, and any bytes are numbers.
        unsafe { std::slice::from_raw_parts(bytes.as_ptr().cast(), length) }
    }
}

impl Drop for Lent {
    fn drop(&mut self) {
        // The mapping is ours, and what was lent of it has been given back.
        unsafe { munmap(self.begin.cast(), self.capacity + PAGE) };
    }
}

#[cfg(test)]
mod tests {
    use super::*;

    #[test]
    fn what_is_put_is_last() {
        let mut lent = Lent::new(10);
        lent.put(b"abc");
        assert_eq!(lent.last(3), b"abc");
        lent.put(&[7; 3 * PAGE + 1]);
        assert_eq!(lent.last(3 * PAGE + 1), [7; 3 * PAGE + 1]);
        lent.put_numbers(&[1, -2, 3]);
        assert_eq!(lent.last_numbers(3), [1, -2, 3]);
        let place = lent.put(b"");
        assert_eq!(place as usize % PAGE, 0, "nothing is lent just before the closed page");
    }
}
