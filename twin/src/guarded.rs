//! Memory that ends at a page which cannot be read: a text that stands at its end cannot be read
//! past.

use std::ffi::c_void;

const PAGE: usize = 4_096;
/// The longest text.
const ROOM: usize = 32 * PAGE;

/// What a page is filled with.
pub const FILL: u8 = 7;

const READ_WRITE: i32 = 1 | 2;
const PRIVATE_ANONYMOUS: i32 = 2 | 0x20;

extern "C" {
    fn mmap(at: *mut c_void, length: usize, protection: i32, flags: i32, file: i32, offset: i64) -> *mut c_void;
    fn mprotect(at: *mut c_void, length: usize, protection: i32) -> i32;
}

pub struct Guarded(&'static mut [u8]);

#[allow(clippy::new_without_default)]
impl Guarded {
    /// Memory for one text, kept to the end of the process.
    pub fn new() -> Guarded {
        // One fresh mapping of its own, writable but for its last page, which is never handed out.
        unsafe {
            let start = mmap(std::ptr::null_mut(), ROOM + PAGE, READ_WRITE, PRIVATE_ANONYMOUS, -1, 0);
            assert!(start as isize != -1, "no memory");
            assert_eq!(mprotect(start.add(ROOM), PAGE, 0), 0, "no guard");
            Guarded(std::slice::from_raw_parts_mut(start.cast(), ROOM))
        }
    }

    /// A page of so many bytes, each of them 7, at the end of the memory.
    pub fn page(&mut self, length: usize) -> &mut [u8] {
        let page = &mut self.0[ROOM - length..];
        page.fill(FILL);
        page
    }

    /// The text, at the end of the memory.
    pub fn place(&mut self, text: &[u8]) -> &[u8] {
        let at = ROOM - text.len();
        self.0[at..].copy_from_slice(text);
        &self.0[at..]
    }
}
