//! Memory to lend, between guard bytes that no call may change.

use peer::random::Random;

const GUARD: usize = 48;

pub struct Guarded {
    memory: Vec<u8>,
    before: Vec<u8>,
    start: usize,
    length: usize,
}

impl Guarded {
    /// The content at an offset that need not be aligned, junk around it.
    pub fn new(random: &mut Random, content: &[u8]) -> Guarded {
        let start = GUARD + random.below(16);
        let mut memory = random.bytes(start);
        memory.extend_from_slice(content);
        memory.extend(random.bytes(GUARD));
        Guarded { before: memory.clone(), memory, start, length: content.len() }
    }

    /// That many bytes of junk.
    pub fn junk(random: &mut Random, length: usize) -> Guarded {
        let content = random.bytes(length);
        Guarded::new(random, &content)
    }

    /// Null for no bytes: every call must take that.
    pub fn pointer(&self) -> *const u8 {
        if self.length == 0 {
            return std::ptr::null();
        }
        self.memory[self.start..].as_ptr()
    }

    pub fn pointer_mut(&mut self) -> *mut u8 {
        if self.length == 0 {
            return std::ptr::null_mut();
        }
        self.memory[self.start..].as_mut_ptr()
    }

    pub fn len(&self) -> usize {
        self.length
    }

    /// The content after a call that may have changed it, and nothing around it.
    pub fn content(self) -> Vec<u8> {
        let end = self.start + self.length;
        assert!(self.memory[..self.start] == self.before[..self.start], "written before the start");
        assert!(self.memory[end..] == self.before[end..], "written past the end");
        self.memory[self.start..end].to_vec()
    }

    /// For memory that a call only reads.
    pub fn unchanged(self) {
        assert!(self.memory == self.before, "written to memory lent for reading");
    }
}
