//! Files with long extension fields before a frame of one byte.

/// 4,096 octets, the most that are read.
pub fn octets() -> Vec<u8> {
    let mut file = vec![0, 0x80];
    file.extend([0xFF; 4095]);
    file.extend([0x00, 8, 1, 0xA5]);
    file
}

/// 1,366 pairs of three bytes.
pub fn pairs() -> Vec<u8> {
    pairs_of(1366, 1, 1)
}

/// 178 pairs of 23 bytes, the longest that there are.
pub fn wide_pairs() -> Vec<u8> {
    pairs_of(178, 7, 15)
}

fn pairs_of(count: usize, identifier: u8, value: u8) -> Vec<u8> {
    let mut file = vec![0, 0xE0];
    for left in (0..count).rev() {
        let more = if left > 0 { 0x80 } else { 0 };
        file.push(more | identifier << 4 | value);
        file.extend(vec![b'a'; identifier.into()]);
        file.extend(vec![b'b'; value.into()]);
    }
    file.extend([8, 1, 0xA5]);
    file
}
