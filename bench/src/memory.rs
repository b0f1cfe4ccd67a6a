//! An allocator that keeps large blocks, so that the original, which allocates its result in each call, meets no page
//! that was never touched.

use std::alloc::{GlobalAlloc, Layout, System};
use std::cell::UnsafeCell;

/// Blocks below this size are left to the system.
const LARGE: usize = 4096;

/// How many freed blocks are kept.
const KEPT: usize = 64;

pub struct Keeping {
    free: UnsafeCell<[(usize, *mut u8); KEPT]>,
}

// SAFETY: the driver has one thread.
unsafe impl Sync for Keeping {}

impl Keeping {
    pub const fn new() -> Self {
        Self {
            free: UnsafeCell::new([(0, std::ptr::null_mut()); KEPT]),
        }
    }

    fn take(&self, size: usize) -> Option<*mut u8> {
        // SAFETY: one thread, and no reference is kept.
        let free = unsafe { &mut *self.free.get() };
        let slot = free.iter_mut().find(|slot| slot.0 == size)?;
        slot.0 = 0;
        Some(slot.1)
    }

    fn keep(&self, size: usize, block: *mut u8) -> bool {
        // SAFETY: as above.
        let free = unsafe { &mut *self.free.get() };
        match free.iter_mut().find(|slot| slot.0 == 0) {
            Some(slot) => {
                *slot = (size, block);
                true
            }
            None => false,
        }
    }
}

// SAFETY: a kept block was allocated with the same size, and every large block is aligned to 64 bytes.
unsafe impl GlobalAlloc for Keeping {
    unsafe fn alloc(&self, layout: Layout) -> *mut u8 {
        if layout.size() < LARGE || layout.align() > 64 {
            return unsafe { System.alloc(layout) };
        }
        match self.take(layout.size()) {
            Some(block) => block,
            None => unsafe { System.alloc(Layout::from_size_align_unchecked(layout.size(), 64)) },
        }
    }

    unsafe fn alloc_zeroed(&self, layout: Layout) -> *mut u8 {
        if layout.size() < LARGE || layout.align() > 64 {
            return unsafe { System.alloc_zeroed(layout) };
        }
        let block = unsafe { self.alloc(layout) };
        if !block.is_null() {
            unsafe { block.write_bytes(0, layout.size()) };
        }
        block
    }

    unsafe fn dealloc(&self, block: *mut u8, layout: Layout) {
        if layout.size() < LARGE || layout.align() > 64 {
            return unsafe { System.dealloc(block, layout) };
        }
        if !self.keep(layout.size(), block) {
            unsafe { System.dealloc(block, Layout::from_size_align_unchecked(layout.size(), 64)) };
        }
    }
}
