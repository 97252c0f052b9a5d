//! Who saves, and where: for the header's stamps.

use std::ffi::{c_char, CStr};

/// The C library's `struct passwd`, with room to spare.
#[repr(C)]
struct Passwd {
    name: *const c_char,
    rest: [usize; 15],
}

extern "C" {
    fn getuid() -> u32;
    fn getpwuid_r(
        user: u32,
        entry: *mut Passwd,
        room: *mut c_char,
        length: usize,
        found: *mut *const Passwd,
    ) -> i32;
    fn gethostname(name: *mut c_char, length: usize) -> i32;
}

const ROOM: usize = 16_384;

/// The text up to the first zero, without what could steer a terminal that shows it.
fn text(bytes: &[c_char]) -> String {
    let bytes: Vec<u8> = bytes.iter().map(|c| *c as u8).collect();
    let text = CStr::from_bytes_until_nul(&bytes).unwrap_or_default().to_string_lossy();
    text.chars().filter(|c| !c.is_control()).collect()
}

/// The name of the user who runs the program; a user without one has a number.
pub fn user() -> String {
    let mut entry = Passwd { name: std::ptr::null(), rest: [0; 15] };
    let (mut room, mut found) = (vec![0; ROOM], std::ptr::null());
    // Sound: all is lent for the call. A name that is found stands in the room, with a zero after it.
    let name = unsafe {
        let user = getuid();
        let told = getpwuid_r(user, &mut entry, room.as_mut_ptr(), room.len(), &mut found);
        match told == 0 && !found.is_null() && !entry.name.is_null() {
            true => {
                CStr::from_ptr(entry.name).to_bytes_with_nul().iter().map(|c| *c as _).collect()
            }
            false => Vec::new(),
        }
    };
    match text(&name) {
        name if name.is_empty() => unsafe { getuid() }.to_string(),
        name => name,
    }
}

/// The machine's name; nothing if it has none.
pub fn host() -> String {
    let mut room = [0; 256];
    // Sound: the room is lent for the call.
    match unsafe { gethostname(room.as_mut_ptr(), room.len()) } {
        0 => text(&room),
        _ => String::new(),
    }
}
