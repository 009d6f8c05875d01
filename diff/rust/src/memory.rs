//! Makes allocations fail. The linker replaces each call of `malloc` and of `realloc` by one of those here.

use std::cell::Cell;
use std::ffi::c_void;
use std::ptr::null_mut;

thread_local! {
    /// The number of allocations that succeed before one fails; 0: none fails.
    static LEFT: Cell<usize> = const { Cell::new(0) };
}

extern "C" {
    fn __real_malloc(size: usize) -> *mut c_void;
    fn __real_realloc(old: *mut c_void, size: usize) -> *mut c_void;
}

fn is_refused() -> bool {
    let left = LEFT.get();
    LEFT.set(left.saturating_sub(1));
    left == 1
}

#[no_mangle]
unsafe extern "C" fn __wrap_malloc(size: usize) -> *mut c_void {
    if is_refused() {
        return null_mut();
    }
    unsafe { __real_malloc(size) }
}

#[no_mangle]
unsafe extern "C" fn __wrap_realloc(old: *mut c_void, size: usize) -> *mut c_void {
    if is_refused() {
        return null_mut();
    }
    unsafe { __real_realloc(old, size) }
}

/// Does some work whose allocation with this 1-based number fails, and returns whether one did.
pub fn refusing<T>(number: usize, work: impl FnOnce() -> T) -> (T, bool) {
    LEFT.set(number);
    let answer = work();
    let is_refused = LEFT.take() == 0;
    (answer, is_refused)
}
