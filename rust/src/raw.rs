//! The calls themselves, as `include/talcfeather.h` declares and describes them.
//!
//! Unsafe to call: pointers must be good for their lengths, memory that a call changes must not
//! overlap other memory lent to it, and no other thread may write to lent memory meanwhile.

extern "C" {
    /// The archive's version.
    pub fn talc_version() -> u32;

    /// Reads a whole file.
    pub fn talc_read(
        file: *const u8,
        file_len: usize,
        passphrase: *const u8,
        passphrase_len: usize,
        ceiling: u32,
        workspace: *mut u8,
        workspace_len: usize,
        answer: *mut [u8; 96],
    ) -> u32;

    /// Writes a whole file.
    pub fn talc_write(
        passphrase: *const u8,
        passphrase_len: usize,
        salt: *const [u8; 32],
        iter: u32,
        k: *const [u8; 32],
        l: *const [u8; 32],
        iv: *const [u8; 16],
        body: *const u8,
        body_len: usize,
        output: *mut u8,
        output_len: usize,
    ) -> u32;

    /// Takes one field.
    pub fn talc_walk(
        body: *const u8,
        body_len: usize,
        place: usize,
        in_record: bool,
        answer: *mut [u8; 72],
    ) -> u32;

    /// Writes one field.
    pub fn talc_append(
        buffer: *mut u8,
        buffer_len: usize,
        place: usize,
        kind: u8,
        data: *const u8,
        data_len: usize,
        fill: *const u8,
        fill_len: usize,
        next: *mut [u8; 8],
    ) -> u32;

    /// Says whether a body is well formed.
    pub fn talc_judge(body: *const u8, body_len: usize, answer: *mut [u8; 16]) -> u32;

    /// Finds a record by its UUID.
    pub fn talc_find(
        body: *const u8,
        body_len: usize,
        uuid: *const [u8; 16],
        answer: *mut [u8; 32],
    ) -> u32;

    /// Takes a whole trace into a state.
    pub fn talc_replay(
        state: *mut u8,
        state_len: usize,
        trace: *const u8,
        trace_len: usize,
        answer: *mut [u8; 8],
    ) -> u32;

    /// Tells the standing of a login.
    pub fn talc_standing(
        state: *const u8,
        state_len: usize,
        uuid: *const [u8; 16],
        answer: *mut [u8; 40],
    ) -> u32;

    /// Exports the logins of a body as a table.
    pub fn talc_export(
        body: *const u8,
        body_len: usize,
        now: u32,
        output: *mut u8,
        output_len: usize,
        answer: *mut [u8; 24],
    ) -> u32;

    /// Says whether these bytes are a table.
    pub fn talc_import(table: *const u8, table_len: usize, answer: *mut [u8; 16]) -> u32;

    /// Takes one row of a table.
    pub fn talc_row(
        table: *const u8,
        table_len: usize,
        number: usize,
        answer: *mut [u8; 56],
    ) -> u32;
}

/// The 8-byte numbers of an answer, in order. Missing bytes count as zero.
pub(crate) fn numbers<const N: usize>(answer: &[u8]) -> [u64; N] {
    let mut numbers = [0u64; N];
    for (i, byte) in answer.iter().take(8 * N).enumerate() {
        numbers[i / 8] |= u64::from(*byte) << (i % 8 * 8);
    }
    numbers
}
