//! Slices that hold several parts one after another.

/// The consecutive parts of these lengths, which the bytes consist of.
pub fn parts<const COUNT: usize>(bytes: &[u8], lengths: [usize; COUNT]) -> [Vec<u8>; COUNT] {
    assert_eq!(bytes.len(), lengths.iter().sum(), "the parts' lengths");
    let mut left = bytes;
    lengths.map(|length| {
        let (part, after) = left.split_at(length);
        left = after;
        part.to_vec()
    })
}
