//! Memory to be lent in pages of its own, between two pages that nobody can touch: a read or a
//! write there ends the program.

use std::ffi::{c_int, c_long, c_void};
use std::{ptr, slice};

extern "C" {
    fn mmap(
        place: *mut c_void,
        len: usize,
        protection: c_int,
        flags: c_int,
        file: c_int,
        offset: c_long,
    ) -> *mut c_void;
    fn mprotect(place: *mut c_void, len: usize, protection: c_int) -> c_int;
    fn signal(number: c_int, handler: usize) -> usize;
    fn write(file: c_int, text: *const c_void, len: usize) -> isize;
    fn _exit(status: c_int) -> !;
}

const NONE: c_int = 0;
const READ: c_int = 1;
const READ_WRITE: c_int = 3;
/// MAP_PRIVATE and MAP_ANONYMOUS of Linux.
const PRIVATE_ANONYMOUS: c_int = 0x22;
const SIGBUS: c_int = 7;
const SIGSEGV: c_int = 11;

const PAGE: usize = 4096;
/// How many bytes are watched on the side that no guard page touches, and what they hold.
const BESIDE: usize = 64;
const FILLING: u8 = 0xA5;

/// Which end of the content a guard page touches.
#[derive(Clone, Copy, PartialEq, Eq)]
pub enum Guard {
    Before,
    Behind,
}

/// Pages mapped once. Content is put to their beginning or to their end.
pub struct Pages {
    first: *mut u8,
    len: usize,
    start: usize,
    end: usize,
    guard: Guard,
}

impl Pages {
    /// Pages for content of up to `longest` bytes.
    pub fn new(longest: usize) -> Pages {
        let len = (longest + BESIDE).next_multiple_of(PAGE);
        // SAFETY: new pages, which nothing else uses.
        unsafe {
            let whole = mmap(
                ptr::null_mut(),
                len + 2 * PAGE,
                NONE,
                PRIVATE_ANONYMOUS,
                -1,
                0,
            );
            assert!(whole as isize != -1, "no pages for {len} bytes");
            let first = whole.cast::<u8>().add(PAGE);
            protect(first, len, READ_WRITE);
            Pages {
                first,
                len,
                start: 0,
                end: 0,
                guard: Guard::Before,
            }
        }
    }

    /// Puts the content beside a guard page, with bytes to be watched on its other side.
    pub fn put(&mut self, content: &[u8], guard: Guard) {
        assert!(content.len() + BESIDE <= self.len, "content too long");
        self.guard = guard;
        self.start = match guard {
            Guard::Before => 0,
            Guard::Behind => self.len - content.len(),
        };
        self.end = self.start + content.len();
        let beside = self.beside();
        // SAFETY: both ranges lie in the pages.
        unsafe {
            ptr::copy_nonoverlapping(content.as_ptr(), self.first.add(self.start), content.len());
            ptr::write_bytes(self.first.add(beside), FILLING, BESIDE);
        }
    }

    /// Where the watched bytes are.
    fn beside(&self) -> usize {
        match self.guard {
            Guard::Before => self.end,
            Guard::Behind => self.start - BESIDE,
        }
    }

    /// The content, for a call.
    pub fn lend(&mut self) -> (*mut u8, usize) {
        // SAFETY: `start` is in the pages, or at their end.
        (unsafe { self.first.add(self.start) }, self.end - self.start)
    }

    pub fn content(&self) -> &[u8] {
        // SAFETY: the content lies in the pages.
        unsafe { slice::from_raw_parts(self.first.add(self.start), self.end - self.start) }
    }

    /// The watched bytes are as they were put.
    pub fn beside_unchanged(&self) -> bool {
        // SAFETY: the watched bytes lie in the pages.
        let beside = unsafe { slice::from_raw_parts(self.first.add(self.beside()), BESIDE) };
        beside == [FILLING; BESIDE]
    }

    /// The pages of the content can only be read, or also be written.
    pub fn let_write(&mut self, writable: bool) {
        let first = self.start / PAGE * PAGE;
        let len = self.end.next_multiple_of(PAGE) - first;
        let protection = if writable { READ_WRITE } else { READ };
        // SAFETY: the range lies in the pages.
        unsafe { protect(self.first.add(first), len, protection) }
    }
}

unsafe fn protect(first: *mut u8, len: usize, protection: c_int) {
    let done = mprotect(first.cast(), len, protection);
    assert!(done == 0, "pages cannot be protected");
}

/// Which call is under way, for the message.
static mut UNDER_WAY: u64 = 0;

/// From now on a forbidden read or write ends the program with the number of the call under way.
pub fn tell_faults() {
    // SAFETY: the handler calls nothing but `write` and `_exit`.
    unsafe {
        for number in [SIGBUS, SIGSEGV] {
            signal(number, tell as *const () as usize);
        }
    }
}

pub fn set_under_way(number: u64) {
    // SAFETY: read by the handler only, on the same thread.
    unsafe { ptr::write_volatile(&raw mut UNDER_WAY, number) }
}

extern "C" fn tell(_: c_int) {
    const TEXT: &[u8] = b"a forbidden read or write in call ";
    let mut digits = [b'\n'; 21];
    let mut first = 20;
    // SAFETY: both texts are whole.
    unsafe {
        let mut rest = ptr::read_volatile(&raw const UNDER_WAY);
        while rest > 0 || first == 20 {
            first -= 1;
            digits[first] = b'0' + (rest % 10) as u8;
            rest /= 10;
        }
        for text in [TEXT, &digits[first..]] {
            write(2, text.as_ptr().cast(), text.len());
        }
        _exit(3)
    }
}
