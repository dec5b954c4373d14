//! How much stack a call touches, measured: a thread runs it on memory that was painted before.

use std::ffi::{c_int, c_void};
use std::ptr::null_mut;

/// Bytes of the painted stack, four times what a call of the product may use.
const BYTES: usize = 1 << 20;

const PAINT: u64 = 0xa5c3_96f0_5a3c_690f;

/// glibc's `pthread_attr_t` of x86-64: 56 bytes.
#[repr(C)]
struct Attributes([u64; 7]);

type Start = extern "C" fn(*mut c_void) -> *mut c_void;

extern "C" {
    fn pthread_attr_init(attributes: *mut Attributes) -> c_int;
    fn pthread_attr_setstack(attributes: *mut Attributes, low: *mut c_void, bytes: usize) -> c_int;
    fn pthread_attr_destroy(attributes: *mut Attributes) -> c_int;
    fn pthread_create(
        thread: *mut usize,
        attributes: *const Attributes,
        start: Start,
        work: *mut c_void,
    ) -> c_int;
    fn pthread_join(thread: usize, result: *mut *mut c_void) -> c_int;
}

/// Bytes of stack from the first to the last that the work touches, beyond what a thread touches
/// that does nothing. Work that panics ends the process.
pub fn touched(work: &mut dyn FnMut()) -> usize {
    depth(work) - depth(&mut || {})
}

/// Bytes from the top of a painted stack down to the lowest word that changed.
fn depth(mut work: &mut dyn FnMut()) -> usize {
    let mut memory = vec![PAINT; BYTES / 8];
    let work: *mut &mut dyn FnMut() = &mut work;
    let low: *mut c_void = memory.as_mut_ptr().cast();
    let mut attributes = Attributes([0; 7]);
    let mut thread = 0;
    unsafe {
        done(pthread_attr_init(&mut attributes));
        done(pthread_attr_setstack(&mut attributes, low, BYTES));
        done(pthread_create(&mut thread, &attributes, run, work.cast()));
        done(pthread_join(thread, null_mut()));
        done(pthread_attr_destroy(&mut attributes));
    }
    let untouched = memory.iter().take_while(|&&word| word == PAINT).count();
    assert_ne!(untouched, 0, "the work touches more than {BYTES} bytes");
    BYTES - 8 * untouched
}

extern "C" fn run(work: *mut c_void) -> *mut c_void {
    let work: *mut &mut dyn FnMut() = work.cast();
    // The caller's, which waits until this thread has ended.
    unsafe { (*work)() };
    null_mut()
}

fn done(status: c_int) {
    assert_eq!(status, 0, "no thread with a stack of its own");
}
