//! Memory to lend to a call. Texts and buffers end at or near a page that may not be touched, and stand between marks.

use std::ffi::c_void;
use std::ptr;

const READ_AND_WRITE: i32 = 3;
const NO_ACCESS: i32 = 0;
const PRIVATE_ANONYMOUS: i32 = 0x22;
const PAGE: usize = 4_096;
const ROOM: usize = 1 << 21;
const GUARD: usize = 32;
const SHOWN: usize = 400;

extern "C" {
    fn mmap(at: *mut c_void, len: usize, protection: i32, flags: i32, file: i32, offset: i64) -> *mut c_void;
    fn mprotect(at: *mut c_void, len: usize, protection: i32) -> i32;
}

/// A mark has the top bit, which no letter has. Neighbours differ, so that a shifted copy shows too.
fn mark(place: usize) -> u8 {
    0x80 | (place.wrapping_mul(37) & 0x7f) as u8
}

/// Byte by byte if there are few: right before the fence, memcmp's wide loads would reach behind it, which is slow.
fn same(ours: &[u8], wanted: &[u8]) -> bool {
    if wanted.len() < 64 {
        return ours.iter().eq(wanted);
    }
    ours == wanted
}

/// A place for one text at a time.
pub struct Fenced {
    fence: *mut u8,
}

impl Fenced {
    pub fn new() -> Self {
        // SAFETY: a fresh mapping of our own; its last page loses every right.
        unsafe {
            let start = mmap(ptr::null_mut(), ROOM + PAGE, READ_AND_WRITE, PRIVATE_ANONYMOUS, -1, 0);
            assert!(start as isize != -1, "no memory for the texts");
            let fence = start.cast::<u8>().add(ROOM);
            assert_eq!(mprotect(fence.cast(), PAGE, NO_ACCESS), 0, "no fence behind the texts");
            Fenced { fence }
        }
    }

    /// Puts the text so that `gap` marks stand between it and the fence. A read at the fence ends the program.
    pub fn lend(&mut self, text: &[u8], gap: usize) -> *const u8 {
        assert!(GUARD + text.len() + gap <= ROOM);
        // SAFETY: the assertion keeps all three writes inside the mapping.
        unsafe {
            let start = self.fence.sub(gap + text.len());
            start.sub(GUARD).write_bytes(mark(0), GUARD);
            start.copy_from_nonoverlapping(text.as_ptr(), text.len());
            start.add(text.len()).write_bytes(mark(0), gap);
            start
        }
    }

    /// Whether the text and the bytes around it are as `lend` wrote them.
    pub fn is_as_lent(&self, text: &[u8], gap: usize) -> bool {
        // SAFETY: the same bytes as in `lend`, which nothing borrows.
        let whole = unsafe {
            let start = self.fence.sub(gap + text.len() + GUARD);
            std::slice::from_raw_parts(start, GUARD + text.len() + gap)
        };
        let (before, rest) = whole.split_at(GUARD);
        let (lent, after) = rest.split_at(text.len());
        let guards = |bytes: &[u8]| bytes.iter().all(|&byte| byte == mark(0));
        guards(before) && same(lent, text) && guards(after)
    }
}

/// A place for one buffer at a time that a call may write: marks before it, and behind it some marks and the fence.
pub struct Buffer {
    fence: *mut u8,
    marks: Vec<u8>,
    len: usize,
    gap: usize,
}

impl Buffer {
    pub fn new() -> Self {
        let Fenced { fence } = Fenced::new();
        let marks: Vec<u8> = (0..ROOM).map(mark).collect();
        // SAFETY: the mapping has ROOM bytes before the fence.
        unsafe { fence.sub(ROOM).copy_from_nonoverlapping(marks.as_ptr(), ROOM) };
        Buffer { fence, marks, len: 0, gap: 0 }
    }

    /// A buffer of `len` bytes with `gap` marks between it and the fence. All marks are written anew.
    pub fn lend(&mut self, len: usize, gap: usize) -> *mut u8 {
        assert!(GUARD + len + gap <= ROOM);
        let used = self.window();
        // SAFETY: the window ends at the fence and is shorter than ROOM.
        unsafe { self.fence.sub(used).copy_from_nonoverlapping(self.marks[ROOM - used..].as_ptr(), used) };
        (self.len, self.gap) = (len, gap);
        // SAFETY: the assertion keeps the buffer inside the mapping.
        unsafe { self.fence.sub(gap + len) }
    }

    /// Whether the result stands at the front and every other byte is as it was.
    pub fn holds_only(&self, result: &[u8]) -> bool {
        let marks = &self.marks[ROOM - self.window()..];
        let (before, rest) = self.bytes().split_at(GUARD);
        let (front, after) = rest.split_at(result.len());
        same(before, &marks[..GUARD]) && same(front, result) && same(after, &marks[GUARD + result.len()..])
    }

    /// The bytes with what stands around them, to be printed.
    pub fn display(&self) -> String {
        let bytes = self.bytes();
        bytes[..bytes.len().min(SHOWN)].escape_ascii().to_string()
    }

    /// How many bytes before the fence are tested.
    fn window(&self) -> usize {
        GUARD + self.len + self.gap
    }

    fn bytes(&self) -> &[u8] {
        // SAFETY: the window ends at the fence, and no call is under way.
        unsafe { std::slice::from_raw_parts(self.fence.sub(self.window()), self.window()) }
    }
}
