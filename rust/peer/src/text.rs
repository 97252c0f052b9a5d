//! Text: well-formed UTF-8 without a byte order mark and without a final 00; and where others go
//! wrong.

/// None for a text. Else the smallest that applies: the length of the longest well-formed start, 0
/// for a byte order mark, the length less 1 for a final 00.
pub fn goes_wrong(data: &[u8]) -> Option<usize> {
    let ill_formed = std::str::from_utf8(data).err().map(|error| error.valid_up_to());
    let mark = data.starts_with(&[0xEF, 0xBB, 0xBF]).then_some(0);
    let zero = data.ends_with(&[0]).then(|| data.len() - 1);
    [ill_formed, mark, zero].into_iter().flatten().min()
}

pub fn is_text(data: &[u8]) -> bool {
    goes_wrong(data).is_none()
}
