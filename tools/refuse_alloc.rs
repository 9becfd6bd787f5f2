//! A library to preload under a program: it refuses the request for memory whose number stands in the
//! variable REFUSE, and each from the number in REFUSE_FROM on, and passes all others on. At the end it
//! says how many requests there were, and how many bytes were held at most.
#![no_std]

use core::ffi::{CStr, c_char, c_int, c_void};
use core::ptr;
use core::sync::atomic::{AtomicIsize, AtomicUsize, Ordering::SeqCst};

unsafe extern "C" {
    // The C library's own, under the names that a program can't take over.
    fn __libc_malloc(size: usize) -> *mut c_void;
    fn __libc_realloc(block: *mut c_void, size: usize) -> *mut c_void;
    fn __libc_free(block: *mut c_void);
    fn malloc_usable_size(block: *mut c_void) -> usize;
    fn getenv(name: *const c_char) -> *const c_char;
    fn atoi(text: *const c_char) -> c_int;
    fn dprintf(file: c_int, format: *const c_char, ...) -> c_int;
    fn abort() -> !;
}

static REQUESTS: AtomicUsize = AtomicUsize::new(0);

// Bytes that are held. What was taken otherwise than here is never added, and may be given back here.
static HELD: AtomicIsize = AtomicIsize::new(0);

static PEAK: AtomicIsize = AtomicIsize::new(0);

/// The number of the one request that is refused, and that of the first of all that are; 0 for none.
static ONE: AtomicUsize = AtomicUsize::new(0);

static FIRST: AtomicUsize = AtomicUsize::new(0);

/// Runs when the library is loaded.
#[used]
#[unsafe(link_section = ".init_array")]
static AT_THE_START: extern "C" fn() = read_variables;

extern "C" fn read_variables() {
    ONE.store(number_in(c"REFUSE"), SeqCst);
    FIRST.store(number_in(c"REFUSE_FROM"), SeqCst);
}

/// The number in the variable, 0 where there is none.
fn number_in(name: &CStr) -> usize {
    let text = unsafe { getenv(name.as_ptr()) };
    if text.is_null() {
        return 0;
    }
    usize::try_from(unsafe { atoi(text) }).unwrap_or(0)
}

/// Counts a request, and tells whether it is to be refused.
fn is_refused() -> bool {
    let number = REQUESTS.fetch_add(1, SeqCst) + 1;
    let first = FIRST.load(SeqCst);
    number == ONE.load(SeqCst) || (first > 0 && number >= first)
}

/// How many bytes the block has, none where there is no block.
fn bytes_of(block: *mut c_void) -> isize {
    unsafe { malloc_usable_size(block) as isize }
}

/// Counts so many bytes as held, or as given back where they are below zero.
fn hold(bytes: isize) {
    let held = HELD.fetch_add(bytes, SeqCst) + bytes;
    PEAK.fetch_max(held, SeqCst);
}

#[unsafe(no_mangle)]
extern "C" fn malloc(size: usize) -> *mut c_void {
    if is_refused() {
        return ptr::null_mut();
    }
    let block = unsafe { __libc_malloc(size) };
    hold(bytes_of(block));
    block
}

#[unsafe(no_mangle)]
extern "C" fn realloc(block: *mut c_void, size: usize) -> *mut c_void {
    if is_refused() {
        return ptr::null_mut();
    }
    let before = bytes_of(block);
    let moved = unsafe { __libc_realloc(block, size) };
    if !moved.is_null() {
        hold(bytes_of(moved) - before);
    }
    moved
}

#[unsafe(no_mangle)]
extern "C" fn free(block: *mut c_void) {
    hold(-bytes_of(block));
    unsafe { __libc_free(block) };
}

/// Runs when the program ends.
#[used]
#[unsafe(link_section = ".fini_array")]
static AT_THE_END: extern "C" fn() = report;

extern "C" fn report() {
    const LINES: &CStr = c"requests: %zu\nbytes held at most: %zd\n";
    unsafe { dprintf(2, LINES.as_ptr(), REQUESTS.load(SeqCst), PEAK.load(SeqCst)) };
}

#[panic_handler]
fn stop(_: &core::panic::PanicInfo) -> ! {
    unsafe { abort() }
}
