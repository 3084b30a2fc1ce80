//! Cases for planes: their dots, formats, wire bits and geometry.

use crate::cases::{Group, Operation, Sweep};

pub fn groups() -> Vec<Group> {
    vec![
        Group {
            name: "is_white",
            operation: Operation::IsWhite,
            sweeps: dots(),
        },
        Group {
            name: "check_geometry",
            operation: Operation::Geometry,
            sweeps: geometries(),
        },
        Group {
            name: "wire_bits",
            operation: Operation::WireBits,
            sweeps: wires(),
        },
        Group {
            name: "convert_format",
            operation: Operation::ConvertFormat,
            sweeps: conversions(),
        },
    ]
}

/// Bytes without a pattern, padding included.
pub fn noise(seed: usize, len: usize) -> Vec<u8> {
    let mut state = seed as u32 * 2 + 1;
    let mut next = || {
        state = state.wrapping_mul(1664525).wrapping_add(1013904223);
        (state >> 24) as u8
    };
    (0..len).map(|_| next()).collect()
}

/// Planes of every width up to 17 and height up to 5, with strides around the row's bytes, each
/// whole, with more bytes, one byte short, with about half its bytes and with none.
fn planes() -> Vec<Vec<u8>> {
    let mut planes = Vec::new();
    for width in 1..=17 {
        for height in 1..=5 {
            let row = usize::div_ceil(width, 8);
            for stride in [row - 1, row, row + 1] {
                let whole = stride * (height - 1) + row;
                for len in [whole, whole + 2, whole - 1, whole / 2, 0] {
                    let size = [width as u8, height as u8];
                    let seed = planes.len();
                    planes.push(plane(size, stride as u8, &noise(seed, len)));
                }
            }
        }
    }
    planes
}

/// Planes of wider rows, with no gap and with one, whole and one byte short.
fn broad() -> Vec<Vec<u8>> {
    let mut planes = Vec::new();
    for width in [31, 64, 65, 127, 128, 129, 200, 254] {
        let row = usize::div_ceil(width, 8);
        for (stride, len) in [(row, 3 * row), (row + 2, 3 * row + 4), (row, 3 * row - 1)] {
            let dots = noise(planes.len(), len);
            planes.push(plane([width as u8, 3], stride as u8, &dots));
        }
    }
    planes
}

/// Planes with strides of 2^56 - 1 up to the largest number, of one row and of several.
fn wide() -> Vec<Vec<u8>> {
    let mut planes = Vec::new();
    for size in [[1, 1], [9, 1], [1, 2], [9, 2], [9, 3], [17, 5]] {
        for stride in [0x00, 0x01, 0x3F, 0x7F, 0x80, 0xFE, 0xFF] {
            let mut wide = plane(size, stride, &noise(planes.len(), 5));
            wide[5] = 0xFF;
            planes.push(wide);
        }
    }
    planes
}

/// Formats, row and column 0; width and height; the stride; the plane.
fn plane(size: [u8; 2], stride: u8, bytes: &[u8]) -> Vec<u8> {
    [&[0; 3], &size[..], &[0, stride], bytes].concat()
}

/// No row or column, and the largest numbers of them.
fn odd_sizes() -> Vec<Vec<u8>> {
    let bytes = noise(1, 6);
    let sizes = [[0, 0], [0, 3], [3, 0], [255, 2], [9, 255], [255, 255]];
    sizes.map(|size| plane(size, 2, &bytes)).to_vec()
}

/// In both formats, every row and column up to one past the larger of width and height; in odd
/// sizes some, the largest among them.
fn dots() -> Vec<Sweep> {
    let sweep = |plane: &[u8], format: u8, alphabet: Vec<u8>| {
        let mut base = plane.to_vec();
        base[0] = format;
        Sweep::over(base, 1, 2, alphabet)
    };
    let mut sweeps = Vec::new();
    for format in [0, 1] {
        for plane in planes().into_iter().chain(wide()) {
            let most = plane[3].max(plane[4]);
            sweeps.push(sweep(&plane, format, (0..=most).collect()));
        }
        for plane in odd_sizes() {
            sweeps.push(sweep(&plane, format, vec![0, 1, 2, 8, 15, 16, 254, 255]));
        }
    }
    sweeps
}

/// Each plane in both formats. Width 0 is left out, for the Rust panics there; so are sizes for
/// which it would ask for too much memory.
fn wires() -> Vec<Sweep> {
    let mut all = [planes(), broad(), wide()].concat();
    all.push(plane([3, 0], 2, &noise(1, 6)));
    all.into_iter().map(|plane| formats(plane, 2)).collect()
}

/// Each plane from each format to each.
fn conversions() -> Vec<Sweep> {
    let all = [planes(), broad(), wide(), odd_sizes()].concat();
    all.into_iter().map(|plane| formats(plane, 4)).collect()
}

fn formats(base: Vec<u8>, count: u8) -> Sweep {
    Sweep::over(base, 0, 1, (0..count).collect())
}

/// Widths and heights with 0 and the largest among them; strides around the row's bytes and
/// around the last that keeps the plane's size within 64 bits; lengths around that size.
fn geometries() -> Vec<Sweep> {
    let sizes = [0, 1, 2, 5, 8, 9, 17, 64, u32::MAX];
    let mut sweeps = Vec::new();
    for width in sizes {
        for height in sizes {
            let row = u64::from(width).div_ceil(8);
            let steps = u64::from(height).saturating_sub(1);
            let last = (u64::MAX - row) / steps.max(1);
            for stride in [
                0,
                row.saturating_sub(1),
                row,
                row + 1,
                last,
                last.saturating_add(1),
            ] {
                let need = u128::from(stride) * u128::from(steps) + u128::from(row);
                let near = [need.saturating_sub(1), need, need + 1];
                let near = near.iter().filter_map(|&len| u8::try_from(len).ok());
                let sizes = [width.to_be_bytes(), height.to_be_bytes()].concat();
                let base = [&sizes[..], &stride.to_be_bytes()].concat();
                let lengths: Vec<u8> = [0, 255].into_iter().chain(near).collect();
                sweeps.push(Sweep::between(&base, 1, &lengths, &[]));
            }
        }
    }
    sweeps
}
