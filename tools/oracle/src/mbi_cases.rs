//! Cases for integers.

use crate::cases::{Group, Operation, Sweep, cuts, strings};

/// Bytes at which the readers decide: values 0, 1, 5 and the largest, with and without bit 7,
/// and the first bytes of the largest number and of the one after it.
const LETTERS: &[u8] = &[0x00, 0x01, 0x05, 0x7F, 0x80, 0x81, 0x8F, 0x90, 0xFF];

pub fn groups() -> Vec<Group> {
    let reads = |strict| Operation::Integer { strict };
    vec![
        Group {
            name: "read_mbi_u32 short",
            operation: reads(false),
            sweeps: short(),
        },
        Group {
            name: "read_mbi_u32_strict short",
            operation: reads(true),
            sweeps: short(),
        },
        Group {
            name: "read_mbi_u32 long",
            operation: reads(false),
            sweeps: long(),
        },
        Group {
            name: "read_mbi_u32_strict long",
            operation: reads(true),
            sweeps: long(),
        },
        Group {
            name: "mbi_u32_len",
            operation: Operation::IntegerLen,
            sweeps: numbers(),
        },
        Group {
            name: "write_mbi_u32",
            operation: Operation::WriteInteger,
            sweeps: written(),
        },
    ]
}

/// Every input of up to 2 bytes, every string of up to 4 letters, every start within or past 2
/// letters.
fn short() -> Vec<Sweep> {
    let whole = [strings(&[0, 0], 2, &[]), strings(&[0, 0], 4, LETTERS)].concat();
    let starts = (1..=4).flat_map(|start| strings(&[0, start], 2, LETTERS));
    let past = [[1, 0], [0xFF, 0xFF]].map(|start| Sweep::one(start.to_vec()));
    whole.into_iter().chain(starts).chain(past).collect()
}

/// Integers of 5 to 9 bytes: up to 8 bytes 80 and 2 letters, the largest number and its
/// neighbours behind up to 4 bytes 80, every cut of them, and every 5 letters of a few.
fn long() -> Vec<Sweep> {
    let padded = |zeros: usize| [vec![0, 0], vec![0x80; zeros]].concat();
    let mut sweeps: Vec<Sweep> = (3..=8)
        .flat_map(|zeros| strings(&padded(zeros), 2, LETTERS))
        .collect();
    for zeros in 0..=4 {
        for first in [0x8E, 0x8F, 0x90, 0xFF] {
            let tail = [first, 0xFF, 0xFF, 0xFF, 0x7F];
            sweeps.extend(cuts(&padded(zeros), &tail));
            sweeps.extend(
                (0..5).map(|at| Sweep::byte(&[&padded(zeros)[..], &tail].concat(), 2 + zeros + at)),
            );
        }
    }
    let few = [0x00, 0x7F, 0x80, 0x8F, 0x90];
    sweeps.push(Sweep::between(&[0, 0], 5, &few, &[]));
    sweeps.push(Sweep::between(&[0, 0, 0x80, 0x80], 5, &few, &[]));
    sweeps.push(Sweep::between(&[0, 0, 0x80, 0x80, 0x80], 5, &few, &[]));
    sweeps
}

/// Every number below 65,536 and those whose four bytes are letters.
fn numbers() -> Vec<Sweep> {
    vec![
        Sweep::between(&[0, 0], 2, &[], &[]),
        Sweep::between(&[], 4, LETTERS, &[]),
    ]
}

/// The numbers around each change of length, and those whose four bytes are a few letters.
fn written() -> Vec<Sweep> {
    let ends = [
        [0, 0, 0],
        [0, 0, 0x3F],
        [0, 0, 0x40],
        [0, 0x1F, 0xFF],
        [0, 0x20, 0],
    ];
    let more = [
        [0x0F, 0xFF, 0xFF],
        [0x10, 0, 0],
        [0x7F, 0xFF, 0xFF],
        [0xFF, 0xFF, 0xFF],
    ];
    let around = ends
        .iter()
        .chain(&more)
        .map(|end| Sweep::byte(&[&end[..], &[0]].concat(), 3));
    let few = [0x00, 0x01, 0x0F, 0x10, 0x7F, 0x80, 0xFF];
    around.chain([Sweep::between(&[], 4, &few, &[])]).collect()
}
