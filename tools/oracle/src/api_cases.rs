//! Cases for what is told of a file: `info`, `sniff` and `probe`.

use crate::cases::{Group, Operation, Sweep, cuts, damaged, strings};
use crate::ext_cases::chain_to;
use crate::file_cases::header;

/// Bytes at which a short file is decided.
const LETTERS: &[u8] = &[0x00, 0x01, 0x09, 0x80, 0xE0, 0xFF];

pub fn groups() -> Vec<Group> {
    let sniffed = || [short(), sized(), rows(), spoilt(), long()].concat();
    vec![
        Group {
            name: "info",
            operation: Operation::Info,
            sweeps: [short(), rows(), spoilt(), long()].concat(),
        },
        Group {
            name: "sniff",
            operation: Operation::Sniff,
            sweeps: sniffed(),
        },
        Group {
            name: "probe",
            operation: Operation::Probe,
            sweeps: sniffed(),
        },
    ]
}

/// Every file of up to two bytes and of up to six letters.
fn short() -> Vec<Sweep> {
    [strings(&[], 2, &[]), strings(&[], 6, LETTERS)].concat()
}

/// Every size of two bytes before bodies of up to six bytes, clean and dirty.
fn sized() -> Vec<Sweep> {
    let bodies: [&[u8]; 9] = [
        &[],
        &[0x00],
        &[0x00; 2],
        &[0x80; 3],
        &[0x00; 4],
        &[0x80; 6],
        &[0x01],
        &[0x80, 0x80, 0x40],
        &[0xFF, 0x80, 0x00, 0x00],
    ];
    let sizes = |body: &[u8]| Sweep::between(&[0, 0], 2, &[], body);
    bodies.map(sizes).to_vec()
}

/// Up to 18 planes, whole, a byte short and with a rest; one of them with every byte at the end of
/// each row, the 17th frame's and a begun row's among them.
fn rows() -> Vec<Sweep> {
    let mut sweeps = Vec::new();
    for (width, height) in [(1, 1), (8, 1), (7, 3), (9, 2), (16, 2), (17, 1), (300, 2)] {
        let row = u32::div_ceil(width, 8) as usize;
        let plane = row * height as usize;
        for frames in 0..=18 {
            for body in [frames * plane, frames * plane + 1, (frames + 1) * plane - 1] {
                sweeps.push(Sweep::one([header(width, height), vec![0; body]].concat()));
            }
        }
    }
    for frames in [1, 2, 16, 17] {
        let file = [header(9, 2), vec![0; 4 * frames + 1]].concat();
        sweeps.extend((4..file.len()).map(|at| Sweep::byte(&file, at)));
    }
    for width in 1..=17 {
        let file = [header(width, 1), vec![0; width.div_ceil(8) as usize]].concat();
        sweeps.push(Sweep::byte(&file, file.len() - 1));
    }
    sweeps
}

/// Files of each kind cut at every byte, and with every byte in every place of the header, which
/// is cut too.
fn spoilt() -> Vec<Sweep> {
    let files: [(&[u8], &[u8]); 4] = [
        (b"\x00\x00\x09\x02", b"\xFF\x80\x00\x00"),
        (b"\x00\x80\x85\x03\x09\x02", b"\xFF\x80\x00\x00"),
        (b"\x00\xA0\x11\x81\x00\x01", &[0; 16]),
        (b"\x00\xE0\x91k1\x12n12\x03\x01", b"\xE0\x80"),
    ];
    let mut sweeps = Vec::new();
    for (header, body) in files {
        let file = [header, body].concat();
        sweeps.extend(damaged(&[], header));
        sweeps.extend((0..header.len()).map(|at| Sweep::byte(&file, at)));
        sweeps.extend(cuts(&[], &file));
    }
    sweeps
}

/// Fields at the ceiling, sizes of many bytes, around 16,384 and the largest.
fn long() -> Vec<Sweep> {
    let mut sweeps = Vec::new();
    for octets in 4094..=4097 {
        let front = [vec![0, 0x80], vec![0xD5; octets]].concat();
        sweeps.extend(cuts(&front, b"\x05\x09\x01\xFF\x80\x55"));
    }
    for start in 4094..=4096 {
        let front = [vec![0, 0xE0], chain_to(start)].concat();
        sweeps.extend(cuts(&front, b"\x7Fkeyword15letters12345Z\x09\x01\xFF\x80"));
    }
    let sides = [1, 127, 128, 16383, 16384, 16385, 1 << 20, u32::MAX];
    for width in sides {
        for height in sides {
            for body in [0, 1, 2048, 2049] {
                sweeps.push(Sweep::one([header(width, height), vec![0; body]].concat()));
            }
        }
    }
    for sizes in [
        &b"\x80\x09\x02"[..],
        b"\x09\x80\x02",
        b"\x80\x80\x80\x80\x80\x80\x09\x02",
    ] {
        sweeps.extend(cuts(&[0, 0], &[sizes, b"\xFF\x80\x00\x00"].concat()));
    }
    for tail in [
        [0x8F, 0xFF, 0xFF, 0xFF, 0x7F],
        [0x90, 0x80, 0x80, 0x80, 0x00],
    ] {
        sweeps.extend(cuts(&[], &[&[0, 0], &tail[..], &tail, &[0]].concat()));
    }
    sweeps
}
