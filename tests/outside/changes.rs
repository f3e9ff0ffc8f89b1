//! Small changes of a string of bytes, all of one kind.

/// The strings that differ from `bytes` in one place at most: at each place each value.
pub fn each_value_of_each_byte(bytes: &[u8]) -> impl Iterator<Item = Vec<u8>> + '_ {
    (0..bytes.len()).flat_map(move |place| {
        (0..=255).map(move |value| {
            let mut changed = bytes.to_vec();
            changed[place] = value;
            changed
        })
    })
}
