//! What becomes of a program for which there is no memory (docs/BENCH.md).

use std::alloc::{GlobalAlloc, Layout, System};
use std::io::{self, Write};
use std::process;

use crate::FAILED;

/// The system's memory; where there is none the program ends.
pub struct OrEnd;

// SAFETY: each call is handed on to the system's allocator with the arguments that it came
// with, and so is each answer, except null, which is never answered.
unsafe impl GlobalAlloc for OrEnd {
    unsafe fn alloc(&self, layout: Layout) -> *mut u8 {
        or_end(unsafe { System.alloc(layout) })
    }

    unsafe fn alloc_zeroed(&self, layout: Layout) -> *mut u8 {
        or_end(unsafe { System.alloc_zeroed(layout) })
    }

    unsafe fn realloc(&self, place: *mut u8, layout: Layout, size: usize) -> *mut u8 {
        or_end(unsafe { System.realloc(place, layout, size) })
    }

    unsafe fn dealloc(&self, place: *mut u8, layout: Layout) {
        unsafe { System.dealloc(place, layout) }
    }
}

fn or_end(place: *mut u8) -> *mut u8 {
    if place.is_null() {
        end();
    }
    place
}

/// Says why the program ends; standard error needs no memory for that.
#[cold]
fn end() -> ! {
    let _ = io::stderr().write_all(b"Error: there is no memory\n");
    process::exit(FAILED.into())
}
