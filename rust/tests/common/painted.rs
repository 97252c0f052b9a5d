//! A painted stack: what a call has left on it, and how far down it went.

use std::ffi::c_void;

const PAINT: u8 = 0xC5;

/// Room for the C library's `pthread_attr_t`, and more.
type Attributes = [u64; 32];

extern "C" {
    fn pthread_attr_init(attributes: *mut Attributes) -> i32;
    fn pthread_attr_setstack(attributes: *mut Attributes, stack: *mut u8, length: usize) -> i32;
    fn pthread_attr_destroy(attributes: *mut Attributes) -> i32;
    fn pthread_create(
        thread: *mut usize,
        attributes: *const Attributes,
        start: extern "C" fn(*mut c_void) -> *mut c_void,
        argument: *mut c_void,
    ) -> i32;
    fn pthread_join(thread: usize, result: *mut *mut c_void) -> i32;
}

/// A call, and where the stack stood before it.
struct Task<'a> {
    call: &'a mut dyn FnMut(),
    stood: usize,
}

extern "C" fn start(task: *mut c_void) -> *mut c_void {
    // Sound: the task outlives the thread, which `painted` waits for.
    let task = unsafe { &mut *task.cast::<Task>() };
    let here = 0u8;
    task.stood = std::hint::black_box(&here) as *const u8 as usize;
    (task.call)();
    std::ptr::null_mut()
}

/// A stack: whole pages, which some C libraries ask for.
#[repr(align(4096))]
struct Stack([u8; 256 * 1024]);

/// A stack on which a call has run.
pub struct Painted {
    stack: Box<Stack>,
    stood: usize,
}

impl Painted {
    /// From the lowest byte that was changed up to where the stack stood before the call.
    pub fn used(&self) -> &[u8] {
        let painted = self.stack.0.iter().take_while(|byte| **byte == PAINT).count();
        assert!(painted > 0, "the stack was used up");
        &self.stack.0[painted..self.stood]
    }
}

/// The call on a painted stack of its own, in a thread of its own.
pub fn painted(call: &mut dyn FnMut()) -> Painted {
    let mut stack = Box::new(Stack([PAINT; 256 * 1024]));
    let (bottom, length) = (stack.0.as_mut_ptr(), stack.0.len());
    let mut task = Task { call, stood: 0 };
    let (mut attributes, mut thread) = ([0; 32], 0);
    unsafe {
        assert_eq!(pthread_attr_init(&mut attributes), 0);
        assert_eq!(pthread_attr_setstack(&mut attributes, bottom, length), 0);
        let argument = (&mut task as *mut Task).cast();
        assert_eq!(pthread_create(&mut thread, &attributes, start, argument), 0);
        assert_eq!(pthread_join(thread, std::ptr::null_mut()), 0);
        pthread_attr_destroy(&mut attributes);
    }
    Painted { stood: task.stood - bottom as usize, stack }
}
