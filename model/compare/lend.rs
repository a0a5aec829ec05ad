//! Memory lent to the library: marks stand around it, and it may end at a page without access.

use crate::draft::Random;
use crate::fail;
use std::ffi::{c_int, c_void};
use std::ops::Range;
use std::slice::{from_raw_parts, from_raw_parts_mut};

extern "C" {
    fn mmap(
        at: *mut c_void,
        len: usize,
        prot: c_int,
        flags: c_int,
        fd: c_int,
        off: i64,
    ) -> *mut c_void;
    fn mprotect(at: *mut c_void, length: usize, protection: c_int) -> c_int;
}

// Linux values, and a page size that suits every Linux machine.
const READ: c_int = 1;
const READ_WRITE: c_int = 1 | 2;
const NO_ACCESS: c_int = 0;
const PRIVATE_ANONYMOUS: c_int = 2 | 0x20;
const PAGE: usize = 65_536;
const READABLE: usize = 3 * PAGE;

/// The most bytes between what is lent and the guard page, and the bytes marked on each side.
const MARGIN: usize = 64;
const MARK: u8 = 0x5c;

/// Bytes between what is lent and the guard page: none, or an even number of marks.
pub fn behind(random: &mut Random) -> usize {
    match random.below(2) {
        0 => 0,
        _ => 2 + 2 * random.below(MARGIN / 2),
    }
}

/// What was lent: where it begins, whether the guard page follows at once, and whether it is a null pointer.
pub struct Loan {
    pub start: *mut u8,
    pub guarded: bool,
    pub null: bool,
}

/// Lends bytes before a guard page or before marks, of which bytes that need no alignment may have an odd number; none are
/// often lent as a null pointer.
pub fn lend(random: &mut Random, lent: &mut Lent, bytes: &[u8], unaligned: bool) -> Loan {
    let behind = behind(random);
    let behind = behind - usize::from(behind > 0 && unaligned && random.percent(50));
    let null = bytes.is_empty() && random.percent(50);
    let guarded = behind == 0 && !bytes.is_empty();
    let start = lent.lend(bytes, behind);
    let start = if null { std::ptr::null_mut() } else { start };
    Loan {
        start,
        guarded,
        null,
    }
}

/// Where some bytes lie within others, if they are part of them in memory.
pub fn place_in(whole: &[u8], part: &[u8]) -> Option<usize> {
    let place = (part.as_ptr() as usize).checked_sub(whole.as_ptr() as usize)?;
    (!part.is_empty() && place + part.len() <= whole.len()).then_some(place)
}

/// Readable bytes before a page without access; a part of them is lent.
pub struct Lent {
    start: *mut u8,
    lent: Range<usize>,
}

impl Lent {
    pub fn new() -> Lent {
        // SAFETY: a fresh mapping that nothing else uses; its last page loses all access.
        unsafe {
            let null = std::ptr::null_mut();
            let start = mmap(null, READABLE + PAGE, READ_WRITE, PRIVATE_ANONYMOUS, -1, 0);
            if start as isize == -1 {
                fail("mmap failed");
            }
            let start = start.cast::<u8>();
            if mprotect(start.add(READABLE).cast(), PAGE, NO_ACCESS) != 0 {
                fail("mprotect failed");
            }
            let lent = READABLE..READABLE;
            Lent { start, lent }
        }
    }

    fn memory(&self) -> &[u8] {
        // SAFETY: the mapping's readable part, which lives as long as the program.
        unsafe { from_raw_parts(self.start, READABLE) }
    }

    /// Lends a copy that ends so many bytes before the guard page.
    pub fn lend(&mut self, bytes: &[u8], behind: usize) -> *mut u8 {
        assert!(behind <= MARGIN && bytes.len() + 2 * MARGIN <= READABLE);
        let end = READABLE - behind;
        self.lent = end - bytes.len()..end;
        // SAFETY: as in `memory`; nothing else refers to it now.
        let memory = unsafe { from_raw_parts_mut(self.start, READABLE) };
        memory[self.lent.start - MARGIN..self.lent.start].fill(MARK);
        memory[self.lent.clone()].copy_from_slice(bytes);
        memory[end..].fill(MARK);
        self.at()
    }

    /// Where the lent bytes start.
    pub fn at(&self) -> *mut u8 {
        // SAFETY: within the mapping or just behind its readable part.
        unsafe { self.start.add(self.lent.start) }
    }

    fn protect(&self, protection: c_int) {
        // SAFETY: the mapping's readable part, which nothing refers to now.
        if unsafe { mprotect(self.start.cast(), READABLE, protection) } != 0 {
            fail("mprotect failed");
        }
    }

    /// Makes a call while the memory can only be read.
    pub fn read_only<T>(&self, call: impl FnOnce() -> T) -> T {
        self.protect(READ);
        let answer = call();
        self.protect(READ_WRITE);
        answer
    }

    /// The lent bytes as they are now.
    pub fn bytes(&self) -> &[u8] {
        &self.memory()[self.lent.clone()]
    }

    /// Whether the bytes on both sides are as they were.
    pub fn marks_stand(&self) -> bool {
        let before = &self.memory()[self.lent.start - MARGIN..self.lent.start];
        let behind = &self.memory()[self.lent.end..];
        before.iter().chain(behind).all(|&byte| byte == MARK)
    }
}
