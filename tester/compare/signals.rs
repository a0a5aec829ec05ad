//! A library that touches what it is not lent, or does not come back, ends the comparison with a line that names the call.

use std::ffi::c_int;
use std::sync::atomic::{AtomicI32, AtomicU32, AtomicU64, Ordering::Relaxed};

extern "C" {
    fn signal(number: c_int, handler: extern "C" fn(c_int)) -> usize;
    fn alarm(seconds: u32) -> u32;
    fn write(file: c_int, bytes: *const u8, length: usize) -> isize;
    fn _exit(code: c_int) -> !;
}

const FAULTS: [c_int; 4] = [4, 7, 8, 11];
const ALARM: c_int = 14;
/// The alarm is set anew after so many calls.
const CALLS: u64 = 256;

static CALL: AtomicU64 = AtomicU64::new(0);
static SECONDS: AtomicU32 = AtomicU32::new(0);
static CODE: AtomicI32 = AtomicI32::new(1);

/// Writes without the library that reads and writes for Rust, which may be at work when the signal comes.
extern "C" fn ended(number: c_int) {
    let why: &[u8] = if number == ALARM { b", does not end\n" } else { b", touches what it was not lent\n" };
    let mut digits = [b'0'; 20];
    let (mut left, mut at) = (CALL.load(Relaxed), digits.len());
    while at == digits.len() || left > 0 {
        at -= 1;
        digits[at] = b'0' + (left % 10) as u8;
        left /= 10;
    }
    for part in [&b"call "[..], &digits[at..], why] {
        // SAFETY: the bytes of a slice.
        unsafe { write(1, part.as_ptr(), part.len()) };
    }
    // SAFETY: ends the process.
    unsafe { _exit(CODE.load(Relaxed)) }
}

/// Ends the process as a fault does.
pub fn end() -> ! {
    std::process::exit(CODE.load(Relaxed))
}

/// From now on; calls have so many seconds together, and a fault ends the process with this code.
pub fn watch(seconds: u32, code: c_int) {
    SECONDS.store(seconds, Relaxed);
    CODE.store(code, Relaxed);
    for number in FAULTS.into_iter().chain([ALARM]) {
        // SAFETY: the handler calls nothing but write and _exit.
        unsafe { signal(number, ended) };
    }
}

pub fn at_call(call: u64) {
    CALL.store(call, Relaxed);
    if call % CALLS == 1 {
        // SAFETY: no memory is involved.
        unsafe { alarm(SECONDS.load(Relaxed)) };
    }
}
