//! Memory that ends where a page begins that nobody may touch: what is lent to a call lies flush against it, so that a read or a write
//! beyond its end stops the program.

use std::ffi::c_void;
use std::ptr;

const PAGE: usize = 4096;
const NO_ACCESS: i32 = 0;
const READ_WRITE: i32 = 1 | 2;
const PRIVATE_ANONYMOUS: i32 = 0x02 | 0x20;

extern "C" {
    fn mmap(at: *mut c_void, length: usize, access: i32, flags: i32, file: i32, offset: i64) -> *mut c_void;
    fn mprotect(at: *mut c_void, length: usize, access: i32) -> i32;
    fn munmap(at: *mut c_void, length: usize) -> i32;
}

/// Room for so many bytes, with the closed page behind it.
pub struct Guarded {
    start: *mut u8,
    room: usize,
}

impl Guarded {
    pub fn new(most: usize) -> Guarded {
        let room = most.div_ceil(PAGE).max(1) * PAGE;
        // SAFETY: new pages of our own, of which the last is closed.
        unsafe {
            let start = mmap(ptr::null_mut(), room + PAGE, READ_WRITE, PRIVATE_ANONYMOUS, -1, 0).cast::<u8>();
            assert!(start as isize != -1, "no memory");
            assert!(mprotect(start.add(room).cast(), PAGE, NO_ACCESS) == 0, "no closed page");
            Guarded { start, room }
        }
    }

    /// The items, copied to the end of the room; null where there are none.
    pub fn lend<T: Copy>(&mut self, items: &[T]) -> *mut T {
        if items.is_empty() {
            return ptr::null_mut();
        }
        let bytes = std::mem::size_of_val(items);
        if self.room < bytes {
            *self = Guarded::new(bytes);
        }
        // SAFETY: as many bytes are left of the closed page, aligned where T's size is a multiple of its alignment, as every size is.
        unsafe {
            let to = self.start.add(self.room - bytes).cast::<T>();
            ptr::copy_nonoverlapping(items.as_ptr(), to, items.len());
            to
        }
    }

    /// The items as a call left them.
    pub fn take_back<T: Copy>(&self, into: &mut [T]) {
        // SAFETY: they were lent from here.
        unsafe {
            let from = self.start.add(self.room - std::mem::size_of_val(into)).cast::<T>();
            ptr::copy_nonoverlapping(from, into.as_mut_ptr(), into.len());
        }
    }
}

impl Drop for Guarded {
    fn drop(&mut self) {
        // SAFETY: the pages that `new` made.
        unsafe { munmap(self.start.cast(), self.room + PAGE) };
    }
}
