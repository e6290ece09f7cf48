//! A call that touches memory outside what is lent: told with the family under way, and the end of the run.

use std::ffi::{c_int, c_void};
use std::ptr::null_mut;
use std::sync::atomic::{AtomicPtr, AtomicUsize, Ordering};

// Linux's numbers.
const SIGBUS: c_int = 7;
const SIGSEGV: c_int = 11;
const STDOUT: c_int = 1;

extern "C" {
    fn signal(number: c_int, handler: extern "C" fn(c_int)) -> usize;
    fn write(file: c_int, bytes: *const c_void, count: usize) -> isize;
    fn _exit(status: c_int) -> !;
}

/// The name of the family under way.
static NAME: AtomicPtr<u8> = AtomicPtr::new(null_mut());
static NAME_BYTES: AtomicUsize = AtomicUsize::new(0);

/// Notes that the family `name` is under way, and tells of it where a call touches memory outside.
pub fn watch(name: &str) {
    let name = String::from(name).leak();
    NAME_BYTES.store(0, Ordering::SeqCst);
    NAME.store(name.as_mut_ptr(), Ordering::SeqCst);
    NAME_BYTES.store(name.len(), Ordering::SeqCst);
    // SAFETY: the handler calls write and _exit alone, which a handler may.
    unsafe {
        signal(SIGSEGV, touched);
        signal(SIGBUS, touched);
    }
}

/// Tells of the touch as a failure and ends the run.
extern "C" fn touched(_: c_int) {
    let tell = |text: &[u8]| {
        // SAFETY: the pointer comes with the text's length.
        unsafe { write(STDOUT, text.as_ptr().cast(), text.len()) };
    };
    tell(b"failed ");
    // SAFETY: the name is kept for ever, and its length is stored behind it.
    unsafe { write(STDOUT, NAME.load(Ordering::SeqCst).cast(), NAME_BYTES.load(Ordering::SeqCst)) };
    tell(b": memory outside what is lent was touched\n0 passed, 1 failed\n");
    // SAFETY: ends the run at once.
    unsafe { _exit(1) }
}
