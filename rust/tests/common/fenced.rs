//! Memory to lend that ends, or starts, at a page that can't be touched: a byte read beyond it ends the
//! test.

/// A multiple of the page size of every machine.
const PAGE: usize = 65_536;
const NOTHING: i32 = 0;
const READ: i32 = 1;
const READ_WRITE: i32 = 3;
const PRIVATE_ANONYMOUS: i32 = 0x22;

extern "C" {
    fn mmap(at: *mut u8, length: usize, may: i32, how: i32, file: i32, offset: i64) -> *mut u8;
    fn mprotect(at: *mut u8, length: usize, may: i32) -> i32;
    fn munmap(at: *mut u8, length: usize) -> i32;
}

pub struct Fenced {
    mapping: *mut u8,
    /// Of the mapping: a page, the room, a page.
    size: usize,
    start: usize,
    length: usize,
}

impl Fenced {
    /// The content directly before a fence, or directly behind one.
    pub fn new(content: &[u8], before: bool) -> Fenced {
        let room = content.len().div_ceil(PAGE).max(1) * PAGE;
        let size = room + 2 * PAGE;
        let start = if before { PAGE + room - content.len() } else { PAGE };
        // Sound: the content goes between the two pages that are shut afterwards.
        unsafe {
            let none = std::ptr::null_mut();
            let mapping = mmap(none, size, READ_WRITE, PRIVATE_ANONYMOUS, -1, 0);
            assert!(mapping as isize != -1, "no memory");
            mapping.add(start).copy_from(content.as_ptr(), content.len());
            assert_eq!(mprotect(mapping, PAGE, NOTHING), 0);
            assert_eq!(mprotect(mapping.add(PAGE + room), PAGE, NOTHING), 0);
            Fenced { mapping, size, start, length: content.len() }
        }
    }

    /// The same, and a byte written to it ends the test too.
    pub fn shown(content: &[u8], before: bool) -> Fenced {
        let fenced = Fenced::new(content, before);
        let room = fenced.size - 2 * PAGE;
        assert_eq!(unsafe { mprotect(fenced.mapping.add(PAGE), room, READ) }, 0);
        fenced
    }

    pub fn pointer(&self) -> *mut u8 {
        unsafe { self.mapping.add(self.start) }
    }

    pub fn len(&self) -> usize {
        self.length
    }

    pub fn content(&self) -> Vec<u8> {
        unsafe { std::slice::from_raw_parts(self.pointer(), self.length) }.to_vec()
    }
}

impl Drop for Fenced {
    fn drop(&mut self) {
        unsafe { munmap(self.mapping, self.size) };
    }
}
