//! Short files and scans in two pieces, cut at every place, and files that end at every byte.

use crate::cases::{Group, Operation, Sweep};
use crate::file_cases::{header, mode};
use crate::list_cases::{MakingCase, ReadingCase};
use crate::plane_cases::noise;
use oracle::encode_lists::Opening;

const EXT: usize = 4118;
/// The length of an output that is enough, and of one that is not.
const ROOMY: usize = 64;
const SCARCE: usize = 1;

/// Few files and scans for the gate's list, or many.
pub fn groups(many: bool) -> Vec<Group> {
    let group = |name, operation, inputs: Vec<Vec<u8>>| Group {
        name,
        operation,
        sweeps: inputs.into_iter().map(Sweep::one).collect(),
    };
    let makings = scans(many).iter().flat_map(|s| making(s)).collect();
    let modes: &[(u8, u8)] = match many {
        false => &[(1, 0)],
        true => &[(0, 0), (0, 1), (1, 0), (1, 1)],
    };
    let files = files(many);
    let read = |each: fn(&[u8], Vec<u8>) -> Vec<Vec<u8>>| {
        let in_mode = |&(format, strict): &(u8, u8)| {
            let settings = mode(format, strict);
            let all = files.iter().map(move |file| each(&settings, file.clone()));
            all.flatten().collect::<Vec<_>>()
        };
        modes.iter().flat_map(in_mode).collect()
    };
    vec![
        group("making lists cut", Operation::MakingList, makings),
        group("reading lists cut", Operation::ReadingList, read(reading)),
        group("reading lists short", Operation::ReadingList, read(short)),
    ]
}

/// Plain files of several frames, files with fields of each kind, with long integers, and refused
/// ones.
fn files(many: bool) -> Vec<Vec<u8>> {
    let mut files: Vec<Vec<u8>> = [
        &b"\x00\x00\x09\x02\xFF\x80\x55\x7F\x01\x02\x03\x04\x05"[..],
        b"\x00\x80\x85\x83\x03\x09\x01\xFF\xFF",
        b"\x00\xA0\x11\x81\x00\x01\x01\x02",
        b"\x00\xE0\x91k1\x12n12\x03\x01\xE0\x1F",
        b"\x80\x00\x7F\x80\x80\x05\x80\x02\xFF\x00\x81",
        b"\x00\x00\x80\x80\x80\x80\x80\x80\x80\x05\x01",
        b"\x00\xE0\x91k1\x02n12\x03\x01",
        b"\x00\xE0\xA1k1v\x20n12\x03\x01",
        b"\x00\x81\x85\x05\x00\x01\xFF",
        b"\x00\xC0\x55\x90\x80\x80\x80\x00\x01",
    ]
    .map(<[u8]>::to_vec)
    .to_vec();
    let sizes: &[(u32, u32, usize)] = match many {
        false => &[(1, 1, 18)],
        true => &[
            (1, 1, 18),
            (7, 3, 17),
            (9, 2, 16),
            (16, 2, 3),
            (17, 1, 17),
            (300, 2, 2),
        ],
    };
    for &(width, height, frames) in sizes {
        let plane = width.div_ceil(8) as usize * height as usize;
        let body = noise(frames, frames * plane + 1);
        files.push([header(width, height), body].concat());
    }
    files
}

/// Cut at every place, with output enough and with hardly any.
fn reading(settings: &[u8], file: Vec<u8>) -> Vec<Vec<u8>> {
    let list = |cut: usize, room: usize| {
        let mark = cut as u8 ^ 0xA5;
        let mut case = ReadingCase::new(settings.to_vec(), mark, EXT, file.clone());
        case.feed(cut, room, EXT);
        case.stages.begin(0);
        case.feed(usize::MAX, room, EXT);
        case.feed(usize::MAX, file.len(), EXT);
        case.close();
        case.feed(1, 1, EXT);
        case.input()
    };
    let cuts = 0..=file.len();
    cuts.flat_map(|cut| [ROOMY, SCARCE].map(|room| list(cut, room)))
        .collect()
}

/// Files that end at every byte.
fn short(settings: &[u8], file: Vec<u8>) -> Vec<Vec<u8>> {
    let list = |len: usize| {
        let front = file[..len].to_vec();
        let mut case = ReadingCase::new(settings.to_vec(), len as u8, EXT, front);
        case.feed(len, ROOMY, EXT);
        case.stages.begin(0);
        case.close();
        case.close();
        case.input()
    };
    (0..=file.len()).map(list).collect()
}

/// An opening, and how many frames the scan has.
type Scan = (Opening, usize);

fn scans(many: bool) -> Vec<Scan> {
    let sizes: &[(u32, u32, usize)] = match many {
        false => &[(9, 1, 2), (3, 2, 2)],
        true => &[
            (1, 1, 17),
            (1, 5, 3),
            (7, 3, 3),
            (8, 2, 3),
            (9, 2, 3),
            (16, 2, 2),
            (17, 3, 2),
            (33, 2, 2),
        ],
    };
    let rules: &[(u8, u8)] = match many {
        false => &[(0, 128), (1, 0), (2, 4)],
        true => &[(0, 0), (0, 128), (0, 255), (1, 0), (2, 2), (2, 4), (2, 8)],
    };
    let opening = |(width, height, frames), (kind, number)| {
        let fields = crate::encoder_cases::ABSENT.to_vec();
        let strict = false;
        let opening = Opening {
            strict,
            kind,
            width,
            height,
            number,
            fields,
        };
        (opening, frames)
    };
    let each = sizes
        .iter()
        .map(|&size| rules.iter().map(move |&rule| opening(size, rule)));
    each.flatten().collect()
}

/// Cut at every place, with output enough and with hardly any.
fn making((opening, frames): &Scan) -> Vec<Vec<u8>> {
    let scan = opening.width as usize * opening.height as usize;
    let samples = noise(scan, scan * frames);
    let work = 2 * opening.width as usize;
    let list = |cut: usize, room: usize| {
        let (mark, lent) = (cut as u8 ^ 0x5A, [work, 4]);
        let mut case = MakingCase::new(opening.clone(), mark, lent, samples.clone());
        case.feed(cut, room, work);
        case.close();
        case.feed(usize::MAX, room, work);
        case.feed(usize::MAX, 2 * samples.len(), work);
        case.close();
        case.input()
    };
    let cuts = 0..=samples.len();
    cuts.flat_map(|cut| [ROOMY, SCARCE].map(|room| list(cut, room)))
        .collect()
}
