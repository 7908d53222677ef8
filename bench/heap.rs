//! The system's allocator, with a count of what is asked of it while it is asked to count. Times are taken while it does not.
use crate::table::number;
use std::alloc::{GlobalAlloc, Layout, System};
use std::sync::atomic::{AtomicBool, AtomicI64, Ordering::Relaxed};

pub struct Counting;

static ON: AtomicBool = AtomicBool::new(false);
static CALLS: AtomicI64 = AtomicI64::new(0);
static BYTES: AtomicI64 = AtomicI64::new(0);
static HELD: AtomicI64 = AtomicI64::new(0);
static MOST_HELD: AtomicI64 = AtomicI64::new(0);

/// Notes that so many bytes were asked for, and that what is held has changed.
fn note(asked: usize, change: i64) {
    CALLS.fetch_add((asked > 0) as i64, Relaxed);
    BYTES.fetch_add(asked as i64, Relaxed);
    let held = HELD.fetch_add(change, Relaxed) + change;
    MOST_HELD.fetch_max(held, Relaxed);
}

unsafe impl GlobalAlloc for Counting {
    unsafe fn alloc(&self, layout: Layout) -> *mut u8 {
        if ON.load(Relaxed) {
            note(layout.size(), layout.size() as i64);
        }
        unsafe { System.alloc(layout) }
    }
    unsafe fn alloc_zeroed(&self, layout: Layout) -> *mut u8 {
        if ON.load(Relaxed) {
            note(layout.size(), layout.size() as i64);
        }
        unsafe { System.alloc_zeroed(layout) }
    }
    unsafe fn realloc(&self, memory: *mut u8, layout: Layout, size: usize) -> *mut u8 {
        if ON.load(Relaxed) {
            note(size, size as i64 - layout.size() as i64);
        }
        unsafe { System.realloc(memory, layout, size) }
    }
    unsafe fn dealloc(&self, memory: *mut u8, layout: Layout) {
        if ON.load(Relaxed) {
            note(0, -(layout.size() as i64));
        }
        unsafe { System.dealloc(memory, layout) }
    }
}

/// What was asked for: how often, how many bytes, how many of them are held at the end, and the most that were held at one time.
#[derive(Debug, PartialEq)]
pub struct Heap {
    pub calls: i64,
    pub bytes: i64,
    pub held: i64,
    pub most_held: i64,
}

impl Heap {
    /// What the Rust asks for, as a sentence, for one of so many packets.
    pub fn over(&self, packets: usize) -> String {
        let each = |n: i64| number(n as f64 / packets as f64);
        format!("The Rust makes {} allocations of {} bytes in all for a packet.", each(self.calls), each(self.bytes))
    }
}

/// A piece of work, and what it asked for.
pub fn counted<T>(work: impl FnOnce() -> T) -> (T, Heap) {
    for number in [&CALLS, &BYTES, &HELD, &MOST_HELD] {
        number.store(0, Relaxed);
    }
    ON.store(true, Relaxed);
    let done = work();
    ON.store(false, Relaxed);
    let [calls, bytes, held, most_held] = [&CALLS, &BYTES, &HELD, &MOST_HELD].map(|number| number.load(Relaxed));
    (done, Heap { calls, bytes, held, most_held })
}
