//! Memory that may run out: large buffers are asked for, and whatever else finds none ends the run with a clear error.

use std::alloc::{GlobalAlloc, Layout, System};
use std::ffi::c_int;
use std::sync::atomic::{AtomicBool, AtomicPtr, Ordering};

use crate::done;
use crate::failure::Failure;
use crate::sys::put;

extern "C" {
    fn _exit(status: c_int) -> !;
}

/// What is kept for small needs when there is no more, so that a failure can be told and files be removed.
const RESERVE: Layout = Layout::new::<[u8; 256 * 1024]>();
const SMALL_BYTES: usize = 16 * 1024;

static KEPT: AtomicPtr<u8> = AtomicPtr::new(std::ptr::null_mut());

/// Whether the run goes on without the memory that it asks for.
static ASKING: AtomicBool = AtomicBool::new(false);

/// Whether an end is told as a JSON object.
static JSON: AtomicBool = AtomicBool::new(false);

struct Told;

#[global_allocator]
static TOLD: Told = Told;

impl Told {
    /// What the system gave; without that the reserve's room for small needs, null if that is awaited, or the end.
    fn given(&self, given: *mut u8, size: usize, again: impl Fn() -> *mut u8) -> *mut u8 {
        if !given.is_null() {
            return given;
        }
        if size <= SMALL_BYTES {
            let kept = KEPT.swap(std::ptr::null_mut(), Ordering::SeqCst);
            if !kept.is_null() {
                unsafe { System.dealloc(kept, RESERVE) };
            }
            let given = again();
            if !given.is_null() {
                return given;
            }
        }
        match ASKING.load(Ordering::SeqCst) {
            true => std::ptr::null_mut(),
            false => end(),
        }
    }
}

unsafe impl GlobalAlloc for Told {
    unsafe fn alloc(&self, layout: Layout) -> *mut u8 {
        let alloc = || unsafe { System.alloc(layout) };
        self.given(alloc(), layout.size(), alloc)
    }

    unsafe fn alloc_zeroed(&self, layout: Layout) -> *mut u8 {
        let alloc = || unsafe { System.alloc_zeroed(layout) };
        self.given(alloc(), layout.size(), alloc)
    }

    unsafe fn realloc(&self, old: *mut u8, layout: Layout, size: usize) -> *mut u8 {
        let realloc = || unsafe { System.realloc(old, layout, size) };
        self.given(realloc(), size, realloc)
    }

    unsafe fn dealloc(&self, old: *mut u8, layout: Layout) {
        unsafe { System.dealloc(old, layout) }
    }
}

/// Sets the reserve aside.
pub fn prepare() {
    let kept = unsafe { System.alloc(RESERVE) };
    KEPT.store(kept, Ordering::SeqCst);
}

pub fn tell_as_json(json: bool) {
    JSON.store(json, Ordering::SeqCst);
}

/// Ends the run without any memory.
fn end() -> ! {
    let is_done = done::marked().is_some();
    if JSON.load(Ordering::SeqCst) && !is_done {
        put(
            1,
            "{\"result\":\"error\",\"message\":\"out of memory; no file was changed\"}\n",
        );
    } else {
        put(2, "lumbraquay: out of memory; ");
        put(2, done::so_far());
        put(2, "\n");
    }
    unsafe { _exit(if is_done { 4 } else { 2 }) }
}

/// Does what may find no memory, and goes on without.
pub fn asking<T>(work: impl FnOnce() -> T) -> T {
    ASKING.store(true, Ordering::SeqCst);
    let done = work();
    ASKING.store(false, Ordering::SeqCst);
    done
}

/// Room for so many items.
pub fn room<T>(items: usize) -> Result<Vec<T>, Failure> {
    let mut room = Vec::new();
    match asking(|| room.try_reserve_exact(items)) {
        Ok(()) => Ok(room),
        Err(_) => {
            let bytes = items.saturating_mul(size_of::<T>());
            Err(Failure::File(format!(
                "out of memory: {bytes} bytes are needed at once; no file was changed"
            )))
        }
    }
}
