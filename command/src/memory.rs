//! Memory from the system. Where it cannot be had, the program ends with a
//! message and status 2, and not by a signal.

use std::alloc::{GlobalAlloc, Layout, System};
use std::os::raw::c_int;

extern "C" {
    fn write(descriptor: c_int, bytes: *const u8, count: usize) -> isize;
    fn _exit(status: c_int) -> !;
}

pub struct Memory;

/// What the system gave, if it is memory.
fn had(place: *mut u8) -> *mut u8 {
    if place.is_null() {
        let message = b"hutsvida: not enough memory\n";
        // The bytes are as many as is said; nothing is used after the exit.
        unsafe {
            write(2, message.as_ptr(), message.len());
            _exit(2);
        }
    }
    place
}

// Each call is handed to the system's allocator as it came.
unsafe impl GlobalAlloc for Memory {
    unsafe fn alloc(&self, layout: Layout) -> *mut u8 {
        had(System.alloc(layout))
    }

    unsafe fn alloc_zeroed(&self, layout: Layout) -> *mut u8 {
        had(System.alloc_zeroed(layout))
    }

    unsafe fn realloc(&self, place: *mut u8, layout: Layout, size: usize) -> *mut u8 {
        had(System.realloc(place, layout, size))
    }

    unsafe fn dealloc(&self, place: *mut u8, layout: Layout) {
        System.dealloc(place, layout)
    }
}
