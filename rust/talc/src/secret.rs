//! Bytes that are wiped before their memory is given back.

pub struct Secret(pub Vec<u8>);

impl Secret {
    fn wipe(&mut self) {
        talcfeather::wipe(&mut self.0);
    }

    /// Keeps that many bytes. The others are wiped: they stand in the memory, and are no longer seen
    /// when that is given back.
    pub fn shorten(&mut self, length: usize) {
        talcfeather::wipe(self.0.get_mut(length..).unwrap_or_default());
        self.0.truncate(length);
    }
}

impl Drop for Secret {
    fn drop(&mut self) {
        self.wipe();
    }
}

#[test]
fn wiped() {
    let mut secret = Secret(b"floor 2".to_vec());
    secret.wipe();
    assert_eq!(secret.0, [0; 7]);
}
