//! Random lists of calls on makings.

use crate::list_cases::MakingCase;
use crate::random_cases::Random;
use crate::random_lists::{OUTPUT, room};
use oracle::encode_lists::Opening;

/// The longest work buffer.
const WORK: u64 = 256;

/// A rule: its kind and number.
fn rule(random: &mut Random) -> (u8, u8) {
    match random.below(10) {
        0 => (0, random.one_of(&[0, 1, 128, 255])),
        1 | 2 => (0, random.next() as u8),
        3..=5 => (2, random.one_of(&[2, 4, 8])),
        6 if random.once_in(4) => (2, random.next() as u8),
        _ => (1, 0),
    }
}

/// A size, mostly small; now and then none or the largest.
fn size(random: &mut Random) -> (u32, u32) {
    let width = match random.below(12) {
        0 => 1,
        1..=3 => random.one_of(&[7, 8, 9, 15, 16, 17, 24]),
        4 => 1 + random.below(128) as u32,
        _ => 1 + random.below(20) as u32,
    };
    let height = match random.below(4) {
        0 => 1,
        _ => 1 + random.below(5) as u32,
    };
    match random.below(80) {
        0 => (0, height),
        1 => (width, 0),
        2 => (width, u32::MAX),
        3 => (u32::MAX, height),
        _ => (width, height),
    }
}

pub fn opening(random: &mut Random) -> Opening {
    let (kind, number) = rule(random);
    let (width, height) = size(random);
    Opening {
        strict: random.below(2) == 1,
        kind,
        width,
        height,
        number,
        fields: random.fields(),
    }
}

/// Samples of some frames, whole or not, at most 1,500.
fn samples(random: &mut Random, opening: &Opening) -> Vec<u8> {
    let scan = u64::from(opening.width) * u64::from(opening.height);
    let frames = match random.below(8) {
        0 => random.one_of(&[15, 16, 17, 18]),
        _ => random.below(4),
    };
    let whole = scan.saturating_mul(frames).min(1500);
    let count = match random.below(3) {
        0 => whole + random.below(12),
        _ => whole,
    };
    random.bytes(count as usize)
}

/// The length of the work buffer of a call: mostly enough.
fn work(random: &mut Random, opening: &Opening) -> usize {
    let need = match opening.kind {
        1 => 2 * u64::from(opening.width),
        _ => 0,
    };
    let need = need.min(WORK);
    let lent = match random.below(8) {
        0 => random.below(need + 1),
        1 | 2 => need + random.below(WORK - need + 1),
        _ => need,
    };
    lent as usize
}

pub fn list(random: &mut Random) -> Vec<u8> {
    let opening = opening(random);
    let samples = samples(random, &opening);
    let lent = [work(random, &opening), header_room(random, &opening)];
    let mark = random.next() as u8;
    let mut case = MakingCase::new(opening, mark, lent, samples);
    let calls = 2 + random.below(24);
    for _ in 0..calls {
        making_call(random, &mut case);
        let over = !case.session.is_open() || case.at == case.samples.len();
        if over && random.once_in(3) {
            break;
        }
    }
    if random.below(3) != 0 {
        finish_making(random, &mut case);
    }
    case.input()
}

/// Mostly enough for the header.
fn header_room(random: &mut Random, opening: &Opening) -> usize {
    let longest = 14 + opening.fields.len();
    match random.below(12) {
        0 => random.below(longest as u64) as usize,
        _ => longest + random.below(3) as usize,
    }
}

fn making_call(random: &mut Random, case: &mut MakingCase) {
    if random.once_in(6) {
        begin_making_stage(random, case);
    }
    if random.once_in(10) {
        return case.close();
    }
    let len = match random.below(8) {
        0 => 0,
        1 => usize::MAX,
        2 => random.below(300) as usize,
        _ => random.below(20) as usize,
    };
    if case.stages.out() < OUTPUT {
        let (out, work) = (room(random), work(random, &case.opening));
        case.feed(len, out, work);
    }
}

/// Now and then somebody else writes the work buffer: the dots are then open up to the list's end.
fn begin_making_stage(random: &mut Random, case: &mut MakingCase) {
    let before = case.stages.0.last().expect("a stage").letter & 8;
    let letter = match random.once_in(24) && case.opening.kind == 1 {
        true => 8 + 1 + random.below(7) as u8,
        false => before,
    };
    case.stages.begin(letter);
}

/// The rest of the samples, closing, and calls after it.
fn finish_making(random: &mut Random, case: &mut MakingCase) {
    let enough = work_enough(&case.opening);
    while case.at < case.samples.len() && case.stages.out() < OUTPUT {
        let before = case.at;
        case.feed(
            1 + random.below(400) as usize,
            1 + random.below(60) as usize,
            enough,
        );
        if case.at == before {
            break;
        }
    }
    case.close();
    for _ in 0..random.below(3) {
        making_call(random, case);
    }
}

pub fn work_enough(opening: &Opening) -> usize {
    match opening.kind {
        1 => (2 * u64::from(opening.width)).min(WORK) as usize,
        _ => 0,
    }
}
