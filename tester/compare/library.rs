//! A library with the C header's entries, loaded: makes a call and holds it against what it must answer and leave.

use crate::call::{Call, Entry, Outcome};
use crate::lend::Area;
use crate::random::Random;
use crate::signals;
use std::ffi::{c_char, c_int, c_void, CStr, CString};
use std::mem::transmute_copy;

extern "C" {
    fn dlopen(file: *const c_char, flags: c_int) -> *mut c_void;
    fn dlsym(library: *mut c_void, name: *const c_char) -> *mut c_void;
    fn dlerror() -> *const c_char;
}

#[repr(C)]
#[derive(Clone, Copy)]
struct Tied {
    left: i32,
    right: i32,
    number: u8,
    by: u8,
    carrier: u8,
    low: u8,
    high: u8,
}

#[repr(C)]
#[derive(Clone, Copy)]
struct Stepped {
    number: u8,
    complete: u8,
    looked: u16,
    length: u64,
}

#[repr(C)]
#[derive(Clone, Copy)]
struct Served {
    number: u8,
    length: u64,
}

type Bytes = *const u8;
type Lent = *mut u8;

/// A field for each entry, by its name behind the prefix.
macro_rules! library {
    ($($entry:ident: $type:ty,)*) => {
        pub struct Library {
            $($entry: $type,)*
        }

        fn entries(loaded: *mut c_void, prefix: &str) -> Library {
            Library { $($entry: symbol(loaded, format!("{prefix}{}", stringify!($entry))),)* }
        }
    };
}

library! {
    run_at: extern "C" fn(u8, Bytes, usize) -> u64,
    run: extern "C" fn(Bytes, usize) -> u64,
    rewrite_at: extern "C" fn(u8, Bytes, usize, Bytes, usize, Lent, usize, Lent, usize) -> u64,
    rewrite: extern "C" fn(Bytes, usize, Bytes, usize, Lent, usize, Lent, usize) -> u64,
    order_at: extern "C" fn(u8, Bytes, usize, Lent, usize, Lent, usize) -> u64,
    order: extern "C" fn(Bytes, usize, Lent, usize, Lent, usize) -> u64,
    tie: extern "C" fn(i8, Bytes, usize, Bytes, usize) -> Tied,
    step: extern "C" fn(Lent, Bytes, usize) -> Stepped,
    carriers: extern "C" fn(Bytes, Lent, usize) -> Served,
}

fn symbol<F: Copy>(library: *mut c_void, name: String) -> F {
    let named = CString::new(name.clone()).expect("a name");
    // SAFETY: a loaded library and a name that ends in 0; F is a function pointer, which has a pointer's size.
    unsafe {
        let found = dlsym(library, named.as_ptr());
        assert!(!found.is_null(), "the library has no {name}");
        transmute_copy::<*mut c_void, F>(&found)
    }
}

/// The library's interface has the header's number, or the comparison ends.
fn interface(loaded: *mut c_void) {
    let header = include_str!("../../include/banthewig.h");
    let number = header.split("#define KNITOUT_INTERFACE ").nth(1).and_then(|rest| rest.split_whitespace().next());
    let number = number.expect("the header's number");
    let given = symbol::<extern "C" fn() -> u32>(loaded, format!("knitout_interface_{number}"))();
    if given.to_string() != number {
        println!("call 0, interface {given} for {number}");
        signals::end();
    }
}

impl Library {
    /// Loads a shared library whose entries are named as in the header, behind a prefix of their own.
    pub fn load(file: &str, prefix: &str) -> Library {
        let path = CString::new(file).expect("a path");
        // SAFETY: a path that ends in 0; 2 binds every symbol at once.
        let loaded = unsafe { dlopen(path.as_ptr(), 2) };
        // SAFETY: after a failure dlerror gives a text.
        assert!(!loaded.is_null(), "{}", unsafe { CStr::from_ptr(dlerror()) }.to_string_lossy());
        if prefix == "knitout_" {
            interface(loaded);
        }
        entries(loaded, prefix)
    }

    /// Makes the call with its loans at these pointers.
    fn make(&self, call: &Call, at: &[*mut u8]) -> [i64; 7] {
        let n = |i: usize| call.loans[i].length();
        let word = match call.entry {
            Entry::RunAt => (self.run_at)(call.limit, at[0], n(0)),
            Entry::Run => (self.run)(at[0], n(0)),
            Entry::RewriteAt => {
                (self.rewrite_at)(call.limit, at[0], n(0), at[1], n(1), at[2], n(2), at[3], n(3))
            }
            Entry::Rewrite => (self.rewrite)(at[0], n(0), at[1], n(1), at[2], n(2), at[3], n(3)),
            Entry::OrderAt => (self.order_at)(call.limit, at[0], n(0), at[1], n(1), at[2], n(2)),
            Entry::Order => (self.order)(at[0], n(0), at[1], n(1), at[2], n(2)),
            Entry::Tie => {
                let t = (self.tie)(call.racking, at[0], n(0), at[1], n(1));
                let bytes = [t.number, t.by, t.carrier, t.low, t.high].map(i64::from);
                return [t.left.into(), t.right.into(), bytes[0], bytes[1], bytes[2], bytes[3], bytes[4]];
            }
            Entry::Step => {
                let s = (self.step)(at[0], at[1], n(1));
                return [s.number.into(), s.complete.into(), s.looked.into(), s.length as i64, 0, 0, 0];
            }
            Entry::Carriers => {
                let s = (self.carriers)(at[0], at[1], n(1));
                return [s.number.into(), s.length as i64, 0, 0, 0, 0, 0];
            }
        };
        [word as i64, 0, 0, 0, 0, 0, 0]
    }

    /// Makes the call and says what is not as it must be, if anything is. What the call may not write to now, it cannot.
    pub fn wrong(&self, call: &Call, right: &Outcome, areas: &mut [Area], random: &mut Random) -> Option<String> {
        let left = |i: usize| call.entry.writable().iter().position(|&w| w == i).map(|w| &right.left[w]);
        let mut at: Vec<*mut u8> = Vec::with_capacity(4);
        for (i, loan) in call.loans.iter().enumerate() {
            at.push(match call.inside {
                Some(place) if i == 1 => at[0].wrapping_add(place),
                _ => areas[i].lend(random, loan, left(i).is_some() && call.writes(right.number)),
            });
        }
        let fields = self.make(call, &at);
        if fields != right.fields {
            return Some(format!("answer {fields:?} for {:?}", right.fields));
        }
        let own = (0..call.loans.len()).filter(|&i| i != 1 || call.inside.is_none());
        own.into_iter().find_map(|i| {
            let wrong = areas[i].wrong(left(i).unwrap_or(&call.loans[i].bytes))?;
            Some(format!("loan {i}, {wrong}"))
        })
    }
}
