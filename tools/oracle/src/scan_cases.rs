//! Cases for the three rules that make dots of gray.

use crate::cases::{Group, Operation, Sweep};
use crate::plane_cases::noise;

pub fn groups() -> Vec<Group> {
    vec![
        Group {
            name: "threshold",
            operation: Operation::Threshold,
            sweeps: ruled(|_| vec![0, 1, 128, 255]),
        },
        Group {
            name: "dither",
            operation: Operation::Dither,
            sweeps: [ruled(work_lengths), corners()].concat(),
        },
        Group {
            name: "ordered",
            operation: Operation::Ordered,
            sweeps: [ruled(|_| vec![2, 4, 8]), sides()].concat(),
        },
    ]
}

/// Work buffers one number short, just long enough and longer; for the largest width short ones.
fn work_lengths(width: u32) -> Vec<u8> {
    let need = width.saturating_mul(2).min(250) as u8;
    vec![need.saturating_sub(1), need, need + 5]
}

/// Scans of every width up to 17 and height up to 5, with surplus and one sample short, of wider
/// rows, and of no width or height and the largest; each with the rule's numbers for its width.
fn ruled(numbers: impl Fn(u32) -> Vec<u8>) -> Vec<Sweep> {
    let mut sweeps = Vec::new();
    let mut put = |width: u32, height: u32, gray: &[u8]| {
        sweeps.push(sweep(width, height, gray, numbers(width)));
    };
    for width in 1..=17 {
        for height in 1..=5 {
            for gray in scans(width as usize, height as usize) {
                put(width, height, &gray);
            }
            let samples = (width * height) as usize;
            put(width, height, &noise(samples, samples + 3));
            put(width, height, &noise(samples, samples - 1));
        }
    }
    for width in [18, 24, 31, 32, 33, 47, 63, 64, 65, 96, 125] {
        put(width, 3, &noise(width as usize, 3 * width as usize));
        put(width, 2, &noise(width as usize, 2 * width as usize - 1));
    }
    let odd = [0, 2, u32::MAX];
    for width in odd {
        for height in odd {
            put(width, height, &[255; 3]);
        }
    }
    sweeps
}

fn sweep(width: u32, height: u32, gray: &[u8], numbers: Vec<u8>) -> Sweep {
    let sizes = [width.to_be_bytes(), height.to_be_bytes()].concat();
    Sweep::over([&[0], &sizes[..], gray].concat(), 0, 1, numbers)
}

/// Flat scans on both sides of the boundaries, a gradient, noise, and line art: a frame with a
/// diagonal.
fn scans(width: usize, height: usize) -> Vec<Vec<u8>> {
    let drawn = |dot: &dyn Fn(usize, usize) -> u8| -> Vec<u8> {
        let row = |y: usize| (0..width).map(move |x| dot(x, y)).collect::<Vec<_>>();
        (0..height).flat_map(row).collect()
    };
    let edge = |x: usize, y: usize| x == 0 || y == 0 || x + 1 == width || y + 1 == height;
    let line = |x: usize, y: usize| if edge(x, y) || x == 2 * y { 0 } else { 255 };
    let flat = [1, 100, 127, 128].map(|gray| vec![gray; width * height]);
    let rest = [
        drawn(&|x, y| (x * 240 / width + y * 3) as u8),
        noise(width * 8 + height, width * height),
        drawn(&line),
    ];
    flat.into_iter().chain(rest).collect()
}

/// Scans in which a dot receives 128 or -128: residuals reach both, gray 0 becomes white and
/// gray FF black. The last sample of the second row takes three values.
fn corners() -> Vec<Sweep> {
    let rows = [
        [0x7F, 0x47, 0x47, 0x3F, 0xFF],
        [0x80, 0xB8, 0xB8, 0xC0, 0x00],
        [0x7F, 0x47, 0x47, 0x3F, 0x00],
        [0x80, 0xB8, 0xB8, 0xC0, 0xFF],
    ];
    let mut sweeps = Vec::new();
    for rows in rows {
        for last in [0x00, 0x80, 0xFF] {
            let two = [&rows[..], &[last]].concat();
            let three = [&two[..], &[0x80; 3]].concat();
            sweeps.push(sweep(3, 2, &two, work_lengths(3)));
            sweeps.push(sweep(3, 3, &three, work_lengths(3)));
        }
    }
    sweeps
}

/// Every side with a scan; every gray in every cell of each side.
fn sides() -> Vec<Sweep> {
    let every_side = sweep(9, 2, &noise(9, 18), Vec::new());
    let flat = (0..=255).map(|gray| sweep(8, 8, &[gray; 64], vec![2, 4, 8]));
    std::iter::once(every_side).chain(flat).collect()
}
