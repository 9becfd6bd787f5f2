//! Memory for both sides, by the same three functions of the C library, and counted in one way: the
//! usable bytes of the blocks that are held. One thread alone asks for memory.
use std::alloc::{GlobalAlloc, Layout};
use std::sync::atomic::{AtomicUsize, Ordering::Relaxed};

unsafe extern "C" {
    fn malloc(size: usize) -> *mut u8;
    fn realloc(block: *mut u8, size: usize) -> *mut u8;
    fn free(block: *mut u8);
    fn malloc_usable_size(block: *mut u8) -> usize;
}

static LIVE: AtomicUsize = AtomicUsize::new(0);
static PEAK: AtomicUsize = AtomicUsize::new(0);

/// The most bytes that are held at one time while the call runs, beyond those held before it.
pub fn peak(call: impl FnOnce()) -> usize {
    let before = LIVE.load(Relaxed);
    PEAK.store(before, Relaxed);
    call();
    PEAK.load(Relaxed) - before
}

/// The bytes that the system can still give, if it tells.
pub fn available() -> Option<usize> {
    let told = std::fs::read_to_string("/proc/meminfo").ok()?;
    let rest = told
        .lines()
        .find_map(|line| line.strip_prefix("MemAvailable:"))?;
    let kibibytes: usize = rest.trim().strip_suffix(" kB")?.parse().ok()?;
    Some(1024 * kibibytes)
}

fn held(block: *mut u8) {
    let live = LIVE.load(Relaxed) + unsafe { malloc_usable_size(block) };
    LIVE.store(live, Relaxed);
    if live > PEAK.load(Relaxed) {
        PEAK.store(live, Relaxed);
    }
}

fn released(bytes: usize) {
    LIVE.store(LIVE.load(Relaxed) - bytes, Relaxed);
}

unsafe fn take(size: usize) -> *mut u8 {
    let block = unsafe { malloc(size) };
    held(block);
    block
}

unsafe fn regrow(block: *mut u8, size: usize) -> *mut u8 {
    let bytes = unsafe { malloc_usable_size(block) };
    let grown = unsafe { realloc(block, size) };
    if !grown.is_null() {
        released(bytes);
        held(grown);
    }
    grown
}

unsafe fn give(block: *mut u8) {
    released(unsafe { malloc_usable_size(block) });
    unsafe { free(block) };
}

/// This program's own memory.
struct Counted;

#[global_allocator]
static COUNTED: Counted = Counted;

unsafe impl GlobalAlloc for Counted {
    unsafe fn alloc(&self, layout: Layout) -> *mut u8 {
        assert!(layout.align() <= 16);
        unsafe { take(layout.size()) }
    }

    unsafe fn dealloc(&self, block: *mut u8, _: Layout) {
        unsafe { give(block) }
    }

    unsafe fn realloc(&self, block: *mut u8, _: Layout, size: usize) -> *mut u8 {
        unsafe { regrow(block, size) }
    }
}

/// What the library is answered: whether there is a block, and where.
#[repr(C)]
pub struct Tried {
    is_block: bool,
    block: *mut u8,
}

static NOTHING: u8 = 0;

fn tried(block: *mut u8) -> Tried {
    let is_block = !block.is_null();
    let nothing = (&raw const NOTHING).cast_mut();
    Tried {
        is_block,
        block: if is_block { block } else { nothing },
    }
}

/// The library's requests. A block of no bytes is one of its alignment.
#[unsafe(no_mangle)]
extern "C" fn rattle_alloc(size: usize, align: usize) -> Tried {
    tried(unsafe { take(if size == 0 { align } else { size }) })
}

#[unsafe(no_mangle)]
extern "C" fn rattle_realloc(block: *mut u8, _kept: usize, size: usize, align: usize) -> Tried {
    tried(unsafe { regrow(block, if size == 0 { align } else { size }) })
}

#[unsafe(no_mangle)]
extern "C" fn rattle_dealloc(block: *mut u8) {
    unsafe { give(block) }
}
