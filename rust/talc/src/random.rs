//! The operating system's random source.

use crate::trouble::Trouble;
use std::io::{self, ErrorKind};
use talcfeather::Uuid;

extern "C" {
    fn getrandom(bytes: *mut u8, length: usize, flags: u32) -> isize;
}

/// Random bytes, or an error: never weaker ones.
pub fn fill(mut bytes: &mut [u8]) -> io::Result<()> {
    while !bytes.is_empty() {
        // Sound: the bytes are lent mutably. No flags: it waits until the source is ready.
        let got = unsafe { getrandom(bytes.as_mut_ptr(), bytes.len(), 0) };
        match usize::try_from(got) {
            Ok(0) => return Err(ErrorKind::UnexpectedEof.into()),
            Ok(got) => bytes = bytes.get_mut(got..).unwrap_or_default(),
            Err(_) => match io::Error::last_os_error() {
                error if error.kind() == ErrorKind::Interrupted => {}
                error => return Err(error),
            },
        }
    }
    Ok(())
}

/// What is made of random bytes. Builder and Parts ask for them by a function that can't fail; so the
/// failure is kept until they are done, and nothing that was made without random bytes gets out.
pub fn made<T>(make: impl FnOnce(&mut dyn FnMut(&mut [u8])) -> T) -> Result<T, Trouble> {
    let mut failed = None;
    let made = make(&mut |bytes| {
        if let Err(error) = fill(bytes) {
            failed = Some(error);
        }
    });
    match failed {
        None => Ok(made),
        Some(error) => {
            let message = "the operating system gives no random bytes, and nothing was written";
            Err(Trouble::Create(format!("{message}: {error}")))
        }
    }
}

/// A UUID of version 4, as RFC 4122 has them made of random bytes.
pub fn uuid(random: &mut dyn FnMut(&mut [u8])) -> Uuid {
    let mut uuid = [0; 16];
    random(&mut uuid);
    uuid[6] = uuid[6] & 0x0f | 0x40;
    uuid[8] = uuid[8] & 0x3f | 0x80;
    Uuid(uuid)
}

#[test]
fn fresh() {
    let draw = || made(|random| uuid(random)).expect("random bytes");
    let uuids: Vec<Uuid> = (0..100).map(|_| draw()).collect();
    assert!(uuids.iter().all(|uuid| uuid.0[6] >> 4 == 4 && uuid.0[8] >> 6 == 2));
    let distinct: std::collections::BTreeSet<_> = uuids.iter().collect();
    assert_eq!(distinct.len(), uuids.len());
    for byte in 0..16 {
        assert!(uuids.iter().any(|uuid| uuid.0[byte] != uuids[0].0[byte]), "byte {byte}");
    }
}
