//! Random lists of calls on readings.

use crate::ext_cases::chain_to;
use crate::file_cases::settings;
use crate::list_cases::ReadingCase;
use crate::random_cases::Random;
use crate::random_lists::{OUTPUT, room};

/// The longest extension buffer, and the shortest that serves.
const BUFFER: usize = 4200;
const EXTENSION: usize = 4118;

/// The usual limits or others, a format, lenient or strict.
fn options(random: &mut Random) -> Vec<u8> {
    let which = random.one_of(&[1, 1, 2, 3, 4, 0, 0]);
    let (width, height) = (1 + random.below(20) as u32, 1 + random.below(4) as u32);
    let mut settings = settings(which, width, height);
    settings[17] = random.below(2) as u8;
    settings[18] = u8::from(random.once_in(3));
    for letter in &mut settings[19..] {
        *letter = random.one_of(&[0, 0, 1, 2, 3, 3]);
    }
    settings
}

/// A file: mostly good, with fields of each kind, up to 18 planes; cut, damaged or long now and then.
fn file(random: &mut Random, plain: bool) -> Vec<u8> {
    let mut file = front(random, plain);
    let (width, height) = (side(random, 20), side(random, 4));
    put_integer(random, plain, width, &mut file);
    put_integer(random, plain, height, &mut file);
    let header = file.len();
    let plane = u64::from(width.div_ceil(8)) * u64::from(height);
    let frames = match random.below(6) {
        0 => random.one_of(&[15, 16, 17, 18]),
        _ => random.below(4),
    };
    let body = plane.saturating_mul(frames).min(500) + random.below(5);
    file.extend(random.bytes(body as usize));
    damage(random, header, &mut file);
    file
}

fn damage(random: &mut Random, header: usize, file: &mut Vec<u8>) {
    if random.once_in(4) {
        let at = random.below(header as u64) as usize;
        file[at] = random.one_of(&[0x00, 0x01, 0x80, 0x81, 0xE0, 0xFF]);
    }
    if random.once_in(6) {
        file.truncate(random.below(file.len() as u64 + 1) as usize);
    }
}

/// Now and then none or the largest.
fn side(random: &mut Random, most: u64) -> u32 {
    match random.below(40) {
        0 => 0,
        1 => random.one_of(&[u32::MAX, 16384, 16385, 1 << 20]),
        _ => 1 + random.below(most) as u32,
    }
}

/// An integer, longer than it need be now and then.
fn put_integer(random: &mut Random, plain: bool, value: u32, file: &mut Vec<u8>) {
    if !plain && random.once_in(8) {
        let zeros = random.one_of(&[1, 2, 5, 6, 7]);
        file.extend(std::iter::repeat_n(0x80, zeros));
    }
    oracle::mbi::write_mbi_u32(value, file);
}

/// Type, FixHeader and fields.
fn front(random: &mut Random, plain: bool) -> Vec<u8> {
    if plain {
        return vec![0, 0];
    }
    match random.below(8) {
        0 => vec![0, random.next() as u8 & 0x7F],
        1 | 2 => [&[0, 0x80], &octets(random)[..]].concat(),
        3 => vec![0, random.one_of(&[0xA0, 0xDF]), random.next() as u8],
        4..=6 => [&[0, random.one_of(&[0xE0, 0xFF])], &pairs(random)[..]].concat(),
        _ => vec![0, 0],
    }
}

fn octets(random: &mut Random) -> Vec<u8> {
    let count = match random.once_in(24) {
        true => random.one_of(&[4094, 4095, 4096, 4097]),
        false => random.below(6) as usize,
    };
    let octet = random.next() as u8;
    let last = random.next() as u8 & 0x7F;
    [vec![octet | 0x80; count], vec![last]].concat()
}

fn pairs(random: &mut Random) -> Vec<u8> {
    let mut pairs = match random.once_in(24) {
        true => chain_to(random.one_of(&[4093, 4094, 4095, 4096])),
        false => Vec::new(),
    };
    let count = 1 + random.below(3);
    for k in 1..=count {
        let (name, value) = (random.below(8) as u8, random.below(16) as u8);
        let lengths = match random.once_in(12) {
            true => name * 16 + value,
            false => name.max(1) * 16 + value.max(1),
        };
        pairs.push(lengths | if k < count { 0x80 } else { 0 });
        let parts = usize::from(lengths / 16) + usize::from(lengths % 16);
        pairs.extend((0..parts).map(|_| random.one_of(b"kv019AZaz\x00\x80-")));
    }
    pairs
}

/// The length of an extension buffer: mostly enough.
fn extension(random: &mut Random) -> usize {
    match random.below(16) {
        0 => random.one_of(&[0, 1, 4000, EXTENSION - 1]),
        1 => EXTENSION + random.below(83) as usize,
        2 => BUFFER,
        _ => EXTENSION,
    }
}

pub fn list(random: &mut Random) -> Vec<u8> {
    let settings = options(random);
    let plain = settings[18] == 1 && !random.once_in(4);
    let file = file(random, plain);
    let ext = match random.once_in(32) {
        true => EXTENSION - 1,
        false => EXTENSION.max(extension(random)),
    };
    let mark = random.next() as u8;
    let mut case = ReadingCase::new(settings, mark, ext, file);
    let calls = 2 + random.below(24);
    for _ in 0..calls {
        reading_call(random, &mut case);
        let over = !case.session.is_open() || case.at == case.file.len();
        if over && random.once_in(3) {
            break;
        }
    }
    if random.below(3) != 0 {
        finish_reading(random, &mut case);
    }
    case.input()
}

fn reading_call(random: &mut Random, case: &mut ReadingCase) {
    if random.once_in(6) {
        case.stages.begin(0);
    }
    if random.once_in(20) {
        return case.close();
    }
    let (out, ext) = (room(random), extension(random));
    if case.stages.out() > OUTPUT {
        return;
    }
    if random.once_in(32) {
        let start = random.below(case.file.len() as u64 + 1) as usize;
        let len = random.below((case.file.len() - start) as u64 + 1) as usize;
        case.feed_at(start, len, out, ext);
        return;
    }
    let len = match random.below(8) {
        0 => 0,
        1 => usize::MAX,
        2 => random.below(5000) as usize,
        _ => random.below(8) as usize,
    };
    case.feed(len, out, ext);
}

/// The rest of the file, closing, and calls after it.
fn finish_reading(random: &mut Random, case: &mut ReadingCase) {
    while case.at < case.file.len() && case.stages.out() < OUTPUT {
        let before = case.at;
        let room = 1 + random.below(60) as usize;
        case.feed(1 + random.below(4000) as usize, room, EXTENSION);
        if case.at == before {
            break;
        }
    }
    case.close();
    for _ in 0..random.below(3) {
        reading_call(random, case);
    }
}
