//! Lent memory: a buffer with guard bytes on both sides, or against a page that may not be touched.

use std::ffi::c_void;

extern "C" {
    fn mmap(at: *mut c_void, size: usize, protection: i32, flags: i32, file: i32, offset: i64) -> *mut c_void;
    fn mprotect(at: *mut c_void, size: usize, protection: i32) -> i32;
    fn munmap(at: *mut c_void, size: usize) -> i32;
}

const PAGE: usize = 65_536;
const ROOM: usize = 0x20_0000;
const GUARD: usize = 64;

fn guard(i: usize) -> u8 {
    0xA5 ^ (i as u8).wrapping_mul(29)
}

/// A readable stretch between two pages that fault.
pub struct Slot {
    base: *mut u8,
    start: usize,
    size: usize,
}

impl Slot {
    pub fn new() -> Slot {
        // PROT_NONE, MAP_PRIVATE | MAP_ANONYMOUS; then PROT_READ | PROT_WRITE for the middle.
        let all = unsafe { mmap(std::ptr::null_mut(), ROOM + 2 * PAGE, 0, 0x22, -1, 0) } as *mut u8;
        let base = all.wrapping_add(PAGE);
        assert!(all as isize != -1 && unsafe { mprotect(base as *mut c_void, ROOM, 3) } == 0, "no memory to lend");
        Slot { base, start: 0, size: 0 }
    }

    fn memory(&mut self) -> &mut [u8] {
        unsafe { std::slice::from_raw_parts_mut(self.base, ROOM) }
    }

    /// Lends a copy of `bytes`: against the last page (place 0), against the first (1), or in between.
    pub fn lend(&mut self, bytes: &[u8], place: usize) -> *mut u8 {
        assert!(bytes.len() + 4096 <= ROOM);
        let (size, start) = (bytes.len(), [ROOM - bytes.len(), 0, 1024 + place][place.min(2)]);
        let memory = self.memory();
        memory[start..start + size].copy_from_slice(bytes);
        for i in 0..GUARD {
            if let Some(at) = start.checked_sub(i + 1) {
                memory[at] = guard(i);
            }
            if start + size + i < ROOM {
                memory[start + size + i] = guard(i);
            }
        }
        (self.start, self.size) = (start, size);
        self.base.wrapping_add(start)
    }

    /// Where the lent bytes begin.
    pub fn address(&self) -> usize {
        self.base as usize + self.start
    }

    /// The first byte that isn't as wanted: its index (guards lie below 0 and from the size on), what it is, what it should be.
    pub fn differs(&mut self, want: &[u8]) -> Option<(i64, u8, u8)> {
        let (start, size) = (self.start, self.size);
        let memory = self.memory();
        for i in 0..GUARD {
            if start > i && memory[start - i - 1] != guard(i) {
                return Some((-1 - i as i64, memory[start - i - 1], guard(i)));
            }
            if start + size + i < ROOM && memory[start + size + i] != guard(i) {
                return Some(((size + i) as i64, memory[start + size + i], guard(i)));
            }
        }
        if &memory[start..start + size] == want {
            return None;
        }
        (0..size).find(|i| memory[start + i] != want[*i]).map(|i| (i as i64, memory[start + i], want[i]))
    }
}

/// Zeros that may be read and not written, more of them than there is memory: a page takes none before it is touched.
pub struct Zeros {
    pub at: *mut c_void,
    size: usize,
}

impl Zeros {
    pub fn new(size: usize) -> Zeros {
        // PROT_READ, MAP_PRIVATE | MAP_ANONYMOUS | MAP_NORESERVE.
        let at = unsafe { mmap(std::ptr::null_mut(), size, 1, 0x4022, -1, 0) };
        assert!(at as isize != -1, "no addresses for {size} bytes");
        Zeros { at, size }
    }
}

impl Drop for Zeros {
    fn drop(&mut self) {
        unsafe { munmap(self.at, self.size) };
    }
}
