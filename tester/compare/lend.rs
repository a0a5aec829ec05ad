//! The lender: memory with a guard page at both ends, which the library sees as read-only or as writable.

use crate::call::Loan;
use crate::random::Random;
use std::ffi::{c_char, c_int, c_void};
use std::ptr::null_mut;
use std::slice::{from_raw_parts, from_raw_parts_mut};

extern "C" {
    fn mmap(at: *mut c_void, length: usize, protection: c_int, flags: c_int, file: c_int, offset: i64) -> *mut c_void;
    fn memfd_create(name: *const c_char, flags: u32) -> c_int;
    fn ftruncate(file: c_int, length: i64) -> c_int;
}

const NONE: c_int = 0;
const READ: c_int = 1;
const READ_WRITE: c_int = 3;
const SHARED: c_int = 0x1;
const PRIVATE: c_int = 0x2;
const FIXED: c_int = 0x10;
const ANONYMOUS: c_int = 0x20;
const NO_RESERVE: c_int = 0x4000;

const PAGE: usize = 4096;
/// The bytes of one area, and those that a loan may claim behind them.
const SIZE: usize = 20 * PAGE;
const BEYOND: usize = 8 << 32;
/// Bytes on both sides of a loan that must keep their contents.
const MARGIN: usize = 64;
const MARK: u8 = 0xc3;

/// One memory: the tester's own view, and four for the library, with guards: read-only, writable, and these two with room behind for
/// loans that claim more.
pub struct Area {
    own: *mut u8,
    views: [*mut u8; 4],
    lent: (usize, usize),
}

fn map(at: *mut u8, length: usize, protection: c_int, flags: c_int, file: c_int) -> *mut u8 {
    // SAFETY: a new mapping, or one over a reservation of ours.
    let start = unsafe { mmap(at.cast(), length, protection, flags, file, 0) };
    assert!(start as isize != -1, "no memory to lend");
    start.cast()
}

impl Area {
    pub fn new() -> Area {
        // SAFETY: a name that ends in 0.
        let file = unsafe { memfd_create(c"lent".as_ptr(), 0) };
        // SAFETY: the file was just made.
        assert!(file >= 0 && unsafe { ftruncate(file, SIZE as i64) } == 0, "no memory to lend");
        let own = map(null_mut(), SIZE, READ_WRITE, SHARED, file);
        let view = |protection, beyond: usize| {
            let reserved = SIZE + beyond + 2 * PAGE;
            let start = map(null_mut(), reserved, NONE, PRIVATE | ANONYMOUS | NO_RESERVE, -1).wrapping_add(PAGE);
            if beyond > 0 {
                let behind = start.wrapping_add(SIZE);
                map(behind, beyond, protection, PRIVATE | ANONYMOUS | NO_RESERVE | FIXED, -1);
            }
            map(start, SIZE, protection, SHARED | FIXED, file)
        };
        let views = [view(READ, 0), view(READ_WRITE, 0), view(READ, BEYOND), view(READ_WRITE, BEYOND)];
        Area { own, views, lent: (0, 0) }
    }

    fn memory(&self) -> &[u8] {
        // SAFETY: the tester's own view, which lives as long as the program.
        unsafe { from_raw_parts(self.own, SIZE) }
    }

    /// Copies a loan to a place and gives the library's view of it. A loan that claims more ends where the room behind begins.
    pub fn lend(&mut self, random: &mut Random, loan: &Loan, writable: bool) -> *mut u8 {
        let length = loan.bytes.len();
        assert!(length + 2 * MARGIN <= SIZE, "a loan is longer than an area");
        let start = match random.below(4) {
            _ if loan.beyond > 0 => SIZE - length,
            0 => 0,
            1 => MARGIN + if loan.unit == 1 { 1 } else { 2 },
            _ => SIZE - length,
        };
        self.lent = (start, start + length);
        // SAFETY: as in `memory`; nothing else refers to it now.
        let memory = unsafe { from_raw_parts_mut(self.own, SIZE) };
        memory[start.saturating_sub(MARGIN)..start].fill(MARK);
        memory[start..start + length].copy_from_slice(&loan.bytes);
        memory[start + length..SIZE.min(start + length + MARGIN)].fill(MARK);
        if length == 0 && random.percent(50) {
            return null_mut();
        }
        let view = self.views[usize::from(writable) + if loan.beyond > 0 { 2 } else { 0 }];
        view.wrapping_add(start)
    }

    /// What is wrong with the loan after a call, if anything is: contents other than these, or bytes around it.
    pub fn wrong(&self, wanted: &[u8]) -> Option<String> {
        let bytes = &self.memory()[self.lent.0..self.lent.1];
        if let Some(at) = (0..wanted.len()).find(|&at| bytes[at] != wanted[at]) {
            return Some(format!("byte {at}: {} for {}", bytes[at], wanted[at]));
        }
        (!self.marks_stand()).then(|| "bytes around it".to_string())
    }

    /// Whether the bytes on both sides are as they were.
    fn marks_stand(&self) -> bool {
        let before = &self.memory()[self.lent.0.saturating_sub(MARGIN)..self.lent.0];
        let behind = &self.memory()[self.lent.1..SIZE.min(self.lent.1 + MARGIN)];
        before.iter().chain(behind).all(|&byte| byte == MARK)
    }
}
