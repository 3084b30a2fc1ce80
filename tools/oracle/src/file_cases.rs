//! Cases for whole reading: the main image and all frames.

use crate::cases::{Group, Operation, Sweep, cuts, damaged, strings};
use crate::ext_cases::chain_to;
use crate::plane_cases::noise;

/// Bytes at which a short file is decided: sizes, types, FixHeaders and dots.
const LETTERS: &[u8] = &[0x00, 0x01, 0x09, 0x80, 0xFF];
/// Where the format and strictness stand in the settings, and the letters of the limits.
const MODES: usize = 17;
const LIMITS: usize = 19;

pub fn groups() -> Vec<Group> {
    let group = |name, all, sweeps| Group {
        name,
        operation: match all {
            false => Operation::DecodeImage,
            true => Operation::DecodeFrames,
        },
        sweeps,
    };
    vec![
        group("decode_image short", false, short()),
        group("decode_frames short", true, short()),
        group("decode_image limits", false, limits()),
        group("decode_frames limits", true, limits()),
        group("decode_image planes", false, planes()),
        group("decode_frames planes", true, planes()),
        group("decode_image damaged", false, spoilt()),
        group("decode_frames damaged", true, spoilt()),
        group("decode_image long", false, long()),
        group("decode_frames long", true, long()),
    ]
}

/// Settings with limits of the kind `which`, which may go by the size given.
pub fn settings(which: u8, width: u32, height: u32) -> Vec<u8> {
    let plane = u64::from(width.div_ceil(8)) * u64::from(height);
    let sizes = [width.to_be_bytes(), height.to_be_bytes()].concat();
    [&[which], &sizes[..], &plane.to_be_bytes(), &[0; 6]].concat()
}

/// The usual limits, a format and strictness.
pub fn mode(format: u8, strict: u8) -> Vec<u8> {
    let mut settings = settings(1, 0, 0);
    settings[MODES] = format;
    settings[MODES + 1] = strict;
    settings
}

/// Both formats, lenient and strict.
fn modes() -> [Vec<u8>; 4] {
    [(0, 0), (0, 1), (1, 0), (1, 1)].map(|(format, strict)| mode(format, strict))
}

/// A file in both formats, lenient and strict.
fn in_modes(settings: &[u8], file: &[u8]) -> Sweep {
    Sweep::over([settings, file].concat(), MODES, 2, vec![0, 1])
}

pub fn header(width: u32, height: u32) -> Vec<u8> {
    let mut out = Vec::new();
    oracle::header::write_header(width, height, &mut out);
    out
}

/// Every file of up to one byte and of type 0 of up to two, of a few letters up to six, and every
/// plain file with sizes, dots and a rest of some letters.
fn short() -> Vec<Sweep> {
    let mut sweeps = Vec::new();
    for mode in modes() {
        sweeps.extend(strings(&mode, 1, &[]));
        sweeps.push(Sweep::byte(&[&mode[..], &[0, 0]].concat(), mode.len() + 1));
        sweeps.extend(strings(&mode, 6, LETTERS));
        let plain = [&mode[..], &[0, 0]].concat();
        sweeps.push(Sweep::between(
            &plain,
            5,
            &[0x01, 0x02, 0x09, 0x7F, 0xFF],
            &[],
        ));
    }
    sweeps
}

/// Every choice of limits absent, one below, exact and one above, for small files; sizes around
/// the limits that come with the settings, and the largest.
fn limits() -> Vec<Sweep> {
    let mut sweeps = Vec::new();
    for (width, height) in [(1u32, 1), (9, 2), (17, 3)] {
        let plane = width.div_ceil(8) * height;
        for body in [plane * 2 + 1, plane, plane - 1] {
            let dots = noise(width as usize, body as usize);
            let file = [header(width, height), dots].concat();
            sweeps.push(Sweep::over(
                [settings(0, width, height), file].concat(),
                LIMITS,
                4,
                vec![0, 1, 2, 3],
            ));
        }
    }
    let sides = [1, 16383, 16384, 16385, 1 << 20, u32::MAX];
    for width in sides {
        for height in sides {
            for which in 1..=4 {
                sweeps.push(in_modes(
                    &settings(which, width, height),
                    &header(width, height),
                ));
            }
            let mut every = settings(0, width, height);
            every[LIMITS..].copy_from_slice(&[2; 4]);
            sweeps.push(Sweep::over(
                [every, header(width, height)].concat(),
                LIMITS,
                4,
                vec![1, 2],
            ));
        }
    }
    sweeps
}

/// Up to 18 planes with dirty padding, whole, a byte short and with a rest, and a few of wider rows,
/// in all modes.
fn planes() -> Vec<Sweep> {
    let mut sweeps = Vec::new();
    for (width, height) in [(1, 1), (8, 1), (7, 3), (9, 2), (16, 2), (17, 1)] {
        let plane = (width as usize).div_ceil(8) * height as usize;
        for frames in 0..=18 {
            for body in [frames * plane, frames * plane + 1, (frames + 1) * plane - 1] {
                let dots = noise(frames + width as usize, body);
                let file = [header(width, height), dots].concat();
                sweeps.push(in_modes(&mode(0, 0), &file));
            }
        }
    }
    for width in [31u32, 64, 65, 127, 129, 300] {
        let plane = 3 * width.div_ceil(8) as usize;
        for body in [plane, 2 * plane, 2 * plane - 1] {
            let dots = noise(width as usize, body);
            sweeps.push(in_modes(&mode(0, 0), &[header(width, 3), dots].concat()));
        }
    }
    sweeps
}

/// Damaged copies of files with no fields, octets, one octet and pairs: the front cut at every
/// byte with every byte in every place, and every byte in each place of the dots.
fn spoilt() -> Vec<Sweep> {
    let files: [(&[u8], &[u8]); 4] = [
        (b"\x00\x00\x09\x02", b"\xFF\x80\x55\x7F\x01\x02\x03\x04\x05"),
        (b"\x00\x80\x85\x03\x09\x02", b"\xFF\x80\x55\x7F"),
        (b"\x00\xA0\x11\x81\x00\x01", &[0x5A; 16]),
        (b"\x00\xE0\x91k1\x12n12\x03\x01", b"\xE0\x1F"),
    ];
    let mut sweeps = Vec::new();
    for (header, body) in files {
        for mode in [mode(0, 0), mode(1, 1)] {
            sweeps.extend(damaged(&mode, header));
            let whole = [&mode[..], header, body].concat();
            let places = mode.len()..mode.len() + header.len();
            sweeps.extend(places.map(|at| Sweep::byte(&whole, at)));
        }
        let file = [header, body].concat();
        sweeps.extend((0..=file.len()).map(|len| in_modes(&mode(0, 0), &file[..len])));
    }
    for at in 4..8 {
        let base = [&mode(1, 0)[..], files[0].0, files[0].1].concat();
        sweeps.push(Sweep::byte(&base, at + 23));
    }
    sweeps
}

/// Fields at the ceiling before a plane; long sizes; large planes.
fn long() -> Vec<Sweep> {
    let mut sweeps = Vec::new();
    for octets in 4094..=4097 {
        let front = [mode(1, 0), vec![0, 0x80], vec![0xD5; octets]].concat();
        sweeps.extend(cuts(&front, b"\x05\x09\x02\xFF\x80\x55\x7F"));
    }
    for start in 4094..=4096 {
        let front = [mode(0, 0), vec![0, 0xE0], chain_to(start)].concat();
        sweeps.extend(cuts(&front, b"\x7Fkeyword15letters12345Z\x09\x01\xFF\x80"));
    }
    let sizes = [b"\x80\x80\x09\x80\x02", b"\x09\x80\x80\x80\x02"];
    sweeps.extend(sizes.map(|sizes| {
        let file = [&b"\x00\x00"[..], sizes, b"\xFF\x80\x55\x7F"].concat();
        in_modes(&mode(0, 0), &file)
    }));
    for (width, height) in [(2047, 15), (8, 3840), (2049, 2), (64, 64)] {
        let plane = (width as usize).div_ceil(8) * height as usize;
        for frames in [1, 2, 16, 17] {
            let body = (frames * plane).min(7900);
            let file = [header(width, height), [0x5A, 0xC3].repeat(body / 2)].concat();
            sweeps.push(in_modes(&mode(0, 0), &file));
        }
    }
    sweeps
}
