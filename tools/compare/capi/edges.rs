//! Files at the edges of integers, sizes and fields.

use crate::check::Tally;
use oracle::mbi::write_mbi_u32;

/// An integer behind so many bytes 0x80.
fn padded(value: u32, zeros: usize) -> Vec<u8> {
    let mut bytes = vec![0x80; zeros];
    write_mbi_u32(value, &mut bytes);
    bytes
}

/// Every place of an integer (type, width, height) with values around each length's end, behind
/// up to eight bytes 0x80.
pub fn integers(t: &mut Tally) {
    let ends = (0..5).map(|groups| 1_u64 << (7 * groups));
    let values = ends
        .flat_map(|n| [n - 1, n, n + 1])
        .chain([1 << 31, u32::MAX.into()]);
    for value in values.map(|n| n as u32) {
        for zeros in 0..=8 {
            let bytes = padded(value, zeros);
            for body in [0, 1, 9] {
                let rest = vec![0; body];
                t.file_all_ways(&[&bytes[..], &[0, 1, 1], &rest].concat());
                t.file_all_ways(&[&[0, 0], &bytes[..], &[1], &rest].concat());
                t.file_all_ways(&[&[0, 0, 1], &bytes[..], &rest].concat());
                t.file_all_ways(&[&[0, 0], &bytes[..], &bytes, &rest].concat());
            }
        }
    }
    // One more than 32 bits, and bytes without an end.
    for front in [&[0x90, 0x80, 0x80, 0x80, 0x00][..], &[0xFF; 9], &[0x80; 9]] {
        for len in 0..=front.len() {
            t.file_all_ways(&[&[0, 0], &front[..len]].concat());
            t.file_all_ways(&[&[0, 0, 1], &front[..len], &[1, 0]].concat());
        }
    }
}

/// Fields of each kind from 4,090 to 4,125 bytes, whole and cut behind them.
pub fn fields(t: &mut Tally) {
    for len in 4_090..=4_125 {
        let mut octets = vec![0x80; len];
        *octets.last_mut().expect("an octet") = 0x01;
        with_fields(t, 0x80, &octets);
        for (identifier, value) in [(1, 1), (7, 15), (1, 15), (3, 2)] {
            with_fields(t, 0xE0, &pairs(len, identifier, value));
        }
    }
}

/// Pairs of these lengths as long as they start before `len`, the last one without bit 7.
fn pairs(len: usize, identifier: usize, value: usize) -> Vec<u8> {
    let mut bytes = Vec::new();
    let mut last = 0;
    while bytes.len() < len {
        last = bytes.len();
        bytes.push(0x80 | (identifier << 4) as u8 | value as u8);
        bytes.extend(vec![b'a'; identifier + value]);
    }
    bytes[last] &= 0x7F;
    bytes
}

fn with_fields(t: &mut Tally, fix: u8, fields: &[u8]) {
    let file = [&[0, fix], fields, &[9, 2, 0xFF, 0x80, 0, 0]].concat();
    for cut in 0..=8 {
        t.file_all_ways(&file[..file.len() - cut]);
    }
}
