//! Memory, as the C library gives it out, counted.

use std::alloc::{GlobalAlloc, Layout, System};
use std::sync::atomic::{AtomicUsize, Ordering::Relaxed};

unsafe extern "C" {
    fn malloc_usable_size(block: *mut u8) -> usize;
}

/// Counts the bytes that are held, and the most there were.
struct Counting;

#[global_allocator]
static COUNTING: Counting = Counting;
static HELD: AtomicUsize = AtomicUsize::new(0);
static MOST: AtomicUsize = AtomicUsize::new(0);

fn count(less: usize, more: usize) {
    let held = HELD.load(Relaxed) + more - less;
    HELD.store(held, Relaxed);
    MOST.fetch_max(held, Relaxed);
}

unsafe impl GlobalAlloc for Counting {
    unsafe fn alloc(&self, layout: Layout) -> *mut u8 {
        let block = unsafe { System.alloc(layout) };
        count(0, unsafe { malloc_usable_size(block) });
        block
    }

    unsafe fn dealloc(&self, block: *mut u8, layout: Layout) {
        count(unsafe { malloc_usable_size(block) }, 0);
        unsafe { System.dealloc(block, layout) }
    }

    unsafe fn realloc(&self, block: *mut u8, layout: Layout, size: usize) -> *mut u8 {
        let before = unsafe { malloc_usable_size(block) };
        let block = unsafe { System.realloc(block, layout, size) };
        count(before, unsafe { malloc_usable_size(block) });
        block
    }
}

/// The bytes that are held now.
pub fn held() -> usize {
    HELD.load(Relaxed)
}

/// The most bytes that were held at a time since this was forgotten.
pub fn most() -> usize {
    MOST.load(Relaxed)
}

pub fn forget_most() {
    MOST.store(held(), Relaxed);
}
