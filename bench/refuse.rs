// A library to be preloaded: it refuses the request for memory whose number, from 1, stands in REFUSE, and then makes the file that REFUSED names.
#![no_std]

use core::ffi::{CStr, c_char, c_int, c_void};
use core::sync::atomic::{AtomicUsize, Ordering::Relaxed};

unsafe extern "C" {
    fn __libc_malloc(size: usize) -> *mut c_void;
    fn __libc_realloc(old: *mut c_void, size: usize) -> *mut c_void;
    fn getenv(name: *const c_char) -> *const c_char;
    fn strtoul(text: *const c_char, end: *mut *mut c_char, base: c_int) -> usize;
    fn creat(path: *const c_char, mode: u32) -> c_int;
    fn abort() -> !;
}

static ASKED: AtomicUsize = AtomicUsize::new(0);

fn variable(name: &CStr) -> Option<*const c_char> {
    let text = unsafe { getenv(name.as_ptr()) };
    (!text.is_null()).then_some(text)
}

fn is_refused() -> bool {
    let asked = ASKED.fetch_add(1, Relaxed) + 1;
    let number = variable(c"REFUSE").map(|text| unsafe { strtoul(text, core::ptr::null_mut(), 10) });
    if number != Some(asked) {
        return false;
    }
    if let Some(path) = variable(c"REFUSED") {
        unsafe { creat(path, 0o644) };
    }
    true
}

#[unsafe(no_mangle)]
extern "C" fn malloc(size: usize) -> *mut c_void {
    if is_refused() { core::ptr::null_mut() } else { unsafe { __libc_malloc(size) } }
}

#[unsafe(no_mangle)]
extern "C" fn realloc(old: *mut c_void, size: usize) -> *mut c_void {
    if is_refused() { core::ptr::null_mut() } else { unsafe { __libc_realloc(old, size) } }
}

#[panic_handler]
fn panic(_: &core::panic::PanicInfo) -> ! {
    unsafe { abort() }
}
