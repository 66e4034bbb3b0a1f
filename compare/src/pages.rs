//! Memory with pages before and after it, its guards, that can't be touched; it can be made read-only itself. What is touched all
//! the same is opened, so that the call continues and its inputs can be reported, and `touched` tells of it. A fault at any other
//! address, null for one, ends the run.
//!
//! For Linux on x86-64. The C library's functions are declared here; the numbers are those of its headers.

use std::ffi::{c_int, c_void};
use std::io::Write;
use std::ops::Range;
use std::ptr;
use std::sync::atomic::{compiler_fence, AtomicBool, AtomicU64, AtomicUsize, Ordering};

/// How many bytes can't be touched on each side: more than any input has.
const GUARD: usize = 1 << 20;

/// The size of a page.
const PAGE: usize = 4096;

/// PROT_NONE, PROT_READ, and PROT_READ with PROT_WRITE.
const CLOSED: c_int = 0;
const READ_ONLY: c_int = 1;
const OPEN: c_int = 3;

/// MAP_PRIVATE, MAP_ANONYMOUS and MAP_NORESERVE.
const PRIVATE: c_int = 0x4022;

/// SIGSEGV and SIGBUS; SA_SIGINFO with SA_ONSTACK.
const FAULTS: [c_int; 2] = [11, 7];
const WITH_ADDRESS: c_int = 0x0800_0004;

/// The beginning of C's `siginfo_t`.
#[repr(C)]
struct Fault {
    signal: c_int,
    error: c_int,
    code: c_int,
    address: usize,
}

/// C's `struct sigaction`.
#[repr(C)]
struct Action {
    handler: extern "C" fn(c_int, *const Fault, *mut c_void),
    mask: [u64; 16],
    flags: c_int,
    restorer: usize,
}

unsafe extern "C" {
    fn mmap(at: *mut c_void, size: usize, access: c_int, flags: c_int, file: c_int, offset: i64) -> *mut c_void;
    fn mprotect(at: *mut c_void, size: usize, access: c_int) -> c_int;
    fn sigaction(signal: c_int, action: *const Action, before: *mut Action) -> c_int;
    fn write(file: c_int, bytes: *const u8, size: usize) -> isize;
    fn _exit(status: c_int) -> !;
}

/// Where each memory begins with the guard before it, and ends with the guard after it; 0 for none.
static MAPPED: [[AtomicUsize; 2]; 8] = [const { [const { AtomicUsize::new(0) }; 2] }; 8];

/// Whether something was touched and is open.
static TOUCHED: AtomicBool = AtomicBool::new(false);

/// How many calls were compared, for the report of a fault that ends the run.
pub static COMPARED: AtomicU64 = AtomicU64::new(0);

/// Opens or closes whole pages; answers whether that was done.
fn set_access(at: usize, size: usize, access: c_int) -> bool {
    // SAFETY: the pages are part of what `Pages::new` mapped. References are made to what is between guards, which stays readable.
    unsafe { mprotect(at as *mut c_void, size, access) == 0 }
}

/// Each memory, from the guard before it to the guard after it.
fn mapped() -> impl Iterator<Item = Range<usize>> {
    let range = |ends: &[AtomicUsize; 2]| ends[0].load(Ordering::Relaxed)..ends[1].load(Ordering::Relaxed);
    MAPPED.iter().map(range).filter(|range| !range.is_empty())
}

/// Opens the memory that was touched, with its guards; where the address is in none, says so and ends the run.
extern "C" fn on_fault(_: c_int, fault: *const Fault, _: *mut c_void) {
    // SAFETY: the kernel hands over a `siginfo_t`.
    let address = unsafe { (*fault).address };
    match mapped().find(|range| range.contains(&address)) {
        Some(range) if set_access(range.start, range.len(), OPEN) => TOUCHED.store(true, Ordering::Relaxed),
        _ => end(address),
    }
}

/// Reports a fault at another address and ends the run. Allocates nothing: it is called while a signal is handled.
fn end(address: usize) -> ! {
    let mut line = [0; 200];
    let mut rest = &mut line[..];
    let many = COMPARED.load(Ordering::Relaxed) + 1;
    let _ = writeln!(rest, "difference, after {many} compared: {address:#x} was touched, which can't be; the run ends");
    let size = 200 - rest.len();
    // SAFETY: so many bytes of the line are written; `_exit` runs nothing further.
    unsafe {
        write(1, line.as_ptr(), size);
        _exit(1)
    }
}

/// From now on faults are noticed.
pub fn watch() {
    let action = Action { handler: on_fault, mask: [0; 16], flags: WITH_ADDRESS, restorer: 0 };
    for signal in FAULTS {
        // SAFETY: the action has the layout of C's, and its handler does what is allowed while a signal is handled.
        let set = unsafe { sigaction(signal, &action, ptr::null_mut()) };
        assert!(set == 0, "faults can't be noticed");
    }
}

/// Whether what can't be touched was, since this was last asked; the guards are closed again.
pub fn touched() -> bool {
    compiler_fence(Ordering::SeqCst);
    let touched = TOUCHED.load(Ordering::Relaxed);
    if touched {
        TOUCHED.store(false, Ordering::Relaxed);
        let close = |at: usize| assert!(set_access(at, GUARD, CLOSED), "a guard can't be closed");
        mapped().flat_map(|range| [range.start, range.end - GUARD]).for_each(close);
    }
    touched
}

/// Memory between two guards. It is never given back.
pub struct Pages {
    start: *mut u8,
    size: usize,
}

impl Pages {
    /// At least that many bytes, all 0, as whole pages.
    pub fn new(least: usize) -> Self {
        let size = least.next_multiple_of(PAGE);
        // SAFETY: new memory, at an address of the kernel's choice.
        let base = unsafe { mmap(ptr::null_mut(), size + 2 * GUARD, CLOSED, PRIVATE, -1, 0) };
        assert!(base as isize != -1, "no memory");
        let start = base as usize + GUARD;
        assert!(set_access(start, size, OPEN), "no memory");
        let free = MAPPED.iter().find(|ends| ends[0].load(Ordering::Relaxed) == 0).expect("a free entry");
        free[0].store(start - GUARD, Ordering::Relaxed);
        free[1].store(start + size + GUARD, Ordering::Relaxed);
        Self { start: start as *mut u8, size }
    }

    /// Makes the memory read-only, or writable again.
    pub fn set_writable(&mut self, writable: bool) {
        let access = if writable { OPEN } else { READ_ONLY };
        assert!(set_access(self.start as usize, self.size, access), "memory can't be made read-only");
    }

    /// The bytes.
    pub fn bytes(&self) -> &[u8] {
        // SAFETY: mapped by `new`, never given back, and borrowed with `self`.
        unsafe { std::slice::from_raw_parts(self.start, self.size) }
    }

    /// The bytes, to be changed where they are writable.
    pub fn bytes_mut(&mut self) -> &mut [u8] {
        // SAFETY: as above.
        unsafe { std::slice::from_raw_parts_mut(self.start, self.size) }
    }
}
