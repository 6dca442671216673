//! The memory that the library asks for: the C library's.

use std::ffi::c_void;
use std::ptr::NonNull;

extern "C" {
    fn malloc(size: usize) -> *mut c_void;
    fn realloc(block: *mut c_void, size: usize) -> *mut c_void;
    fn free(block: *mut c_void);
}

#[repr(C)]
struct Tried {
    ok: bool,
    block: *mut c_void,
}

fn tried(block: *mut c_void) -> Tried {
    if block.is_null() {
        Tried { ok: false, block: NonNull::<u128>::dangling().as_ptr().cast() }
    } else {
        Tried { ok: true, block }
    }
}

// These three hand on what they are given, and come from one allocator.

#[no_mangle]
extern "C" fn rattle_alloc(size: usize, align: usize) -> Tried {
    // SAFETY: any size may be asked for.
    tried(unsafe { malloc(if size == 0 { align } else { size }) })
}

#[no_mangle]
unsafe extern "C" fn rattle_realloc(block: *mut c_void, _kept: usize, size: usize, align: usize) -> Tried {
    tried(realloc(block, if size == 0 { align } else { size }))
}

#[no_mangle]
unsafe extern "C" fn rattle_dealloc(block: *mut c_void) {
    free(block)
}
