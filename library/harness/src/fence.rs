//! Memory between two pages that nobody may touch. Whoever reaches outside it
//! ends the run, which then says which call it was.

use std::ffi::{c_int, c_void};
use std::sync::atomic::{AtomicUsize, Ordering};

use crate::call::Call;
use crate::rows::{CALLS, ROWS};

/// A multiple of every page's size.
pub const PAGE: usize = 1 << 16;

// Of the C library on Linux.
const NO_ACCESS: c_int = 0;
const READ_AND_WRITE: c_int = 3;
const PRIVATE_ANONYMOUS: c_int = 0x22;
const MEMORY_FAULT: c_int = 11;

extern "C" {
    fn mmap(
        at: *mut c_void,
        bytes: usize,
        access: c_int,
        how: c_int,
        file: c_int,
        from: i64,
    ) -> *mut c_void;
    fn mprotect(at: *mut c_void, bytes: usize, access: c_int) -> c_int;
    fn munmap(at: *mut c_void, bytes: usize) -> c_int;
    fn signal(number: c_int, handler: extern "C" fn(c_int)) -> usize;
    fn write(file: c_int, bytes: *const u8, count: usize) -> isize;
    fn _exit(status: c_int) -> !;
}

/// Memory between two pages that nobody may touch.
pub struct Fenced {
    memory: *mut u8,
    room: usize,
}

impl Fenced {
    pub fn new(room: usize) -> Fenced {
        let room = room.next_multiple_of(PAGE);
        let all = room + 2 * PAGE;
        // SAFETY: new memory, which nobody else has.
        unsafe {
            let start = mmap(
                std::ptr::null_mut(),
                all,
                NO_ACCESS,
                PRIVATE_ANONYMOUS,
                -1,
                0,
            );
            assert!(start as isize != -1, "no memory");
            let memory = start.cast::<u8>().add(PAGE);
            let opened = mprotect(memory.cast(), room, READ_AND_WRITE);
            assert_eq!(opened, 0, "no memory");
            Fenced { memory, room }
        }
    }

    /// How many bytes there are.
    pub fn room(&self) -> usize {
        self.room
    }

    /// Their first one.
    pub fn memory(&self) -> *mut u8 {
        self.memory
    }

    pub fn bytes(&mut self) -> &mut [u8] {
        // SAFETY: `room` bytes that belong to this value alone.
        unsafe { std::slice::from_raw_parts_mut(self.memory, self.room) }
    }
}

impl Drop for Fenced {
    fn drop(&mut self) {
        // SAFETY: the memory is this value's, and nobody points into it now.
        unsafe {
            munmap(self.memory.sub(PAGE).cast(), self.room + 2 * PAGE);
        }
    }
}

/// The call that is being made, for the last words of the run.
static MAKING: AtomicUsize = AtomicUsize::new(CALLS);

pub fn making(call: &Call) {
    MAKING.store(call.name as usize, Ordering::Relaxed);
}

/// Says which call reached outside its buffers, and ends the run.
extern "C" fn reached_outside(_: c_int) {
    let name = ROWS.get(MAKING.load(Ordering::Relaxed)).map(|row| row.text);
    let words = [
        "harness: hansobrik_",
        name.unwrap_or("?"),
        " reached outside its buffers\n",
    ];
    // SAFETY: these two calls are allowed here, and the bytes are static.
    unsafe {
        for word in words {
            write(2, word.as_ptr(), word.len());
        }
        _exit(1)
    }
}

/// From now on a memory fault ends the run with words.
pub fn watch() {
    // SAFETY: the handler ends the run.
    unsafe {
        signal(MEMORY_FAULT, reached_outside);
    }
}
