//! Compares the C functions with the unchanged Rust on millions of inputs: every answer, every
//! lent number, and every byte of the output, also those that are not to be written.
//! Usage: capi [SEED]. Prints the counts of each class, and ends at the first difference.

#[path = "../../capi.rs"]
mod capi;
mod check;
mod edges;
mod expected;
mod good;
mod random;

use check::Tally;
use expected::NO_LIMITS;
use good::{Card, cards};
use random::Random;

fn main() {
    let seed = std::env::args()
        .nth(1)
        .map_or(1, |word| word.parse().expect("a seed"));
    let mut tally = Tally::new();
    tally.class("every file of up to 3 bytes", every_short_file);
    tally.class("every file of 4 to 7 telling bytes", every_telling_file);
    tally.class("random files", |t| random_files(t, Random::new(seed)));
    tally.class("good files cut at every byte", cut_files);
    tally.class("good files, damaged", |t| {
        damaged_files(t, Random::new(seed))
    });
    tally.class("0 to 18 planes and a byte around each", planes);
    tally.class("limits at the size, one below, one above", limits);
    tally.class("integers and sizes at their ends", edges::integers);
    tally.class("fields around their ceiling", edges::fields);
    tally.class("formats, strictness, output lengths", settings);
    tally.finish();
}

fn every_short_file(t: &mut Tally) {
    t.file(&[]);
    for a in 0..=255 {
        t.file(&[a]);
        for b in 0..=255 {
            t.file(&[a, b]);
            for c in 0..=255 {
                t.file(&[a, b, c]);
            }
        }
    }
}

/// The bytes that decide something: numbers, ends of integers, headers of pairs.
const TELLING: [u8; 8] = [0x00, 0x01, 0x09, 0x12, 0x7F, 0x80, 0x81, 0xE0];

fn every_telling_file(t: &mut Tally) {
    for len in 4..=7 {
        let mut digits = vec![0; len];
        loop {
            let file: Vec<u8> = digits.iter().map(|&d| TELLING[d]).collect();
            t.file(&file);
            let Some(last) = digits.iter().rposition(|&d| d + 1 < TELLING.len()) else {
                break;
            };
            digits[last] += 1;
            digits[last + 1..].fill(0);
        }
    }
}

fn random_files(t: &mut Tally, mut r: Random) {
    for _ in 0..1_000_000 {
        let len = r.below(64);
        let mut file = r.bytes(len);
        t.file(&file);
        // The same behind the front of a header that many readers go through.
        let front: &[u8] =
            [&[0, 0][..], &[0, 0x80], &[0, 0xA0], &[0, 0xC0], &[0, 0xE0]][r.below(5)];
        file.splice(0..0, front.iter().copied());
        t.file(&file);
    }
}

fn cut_files(t: &mut Tally) {
    for card in cards() {
        let file = card.file();
        for len in 0..=file.len() {
            t.file_all_ways(&file[..len]);
        }
    }
}

fn damaged_files(t: &mut Tally, mut r: Random) {
    let files: Vec<Vec<u8>> = cards().iter().map(Card::file).collect();
    for _ in 0..1_500_000 {
        let mut file = files[r.below(files.len())].clone();
        for _ in 0..=r.below(3) {
            r.damage(&mut file);
        }
        t.file(&file);
    }
}

fn planes(t: &mut Tally) {
    for card in cards() {
        for frames in 0..=18 {
            let file = card.with_frames(frames).file();
            for by in [-1, 0, 1] {
                let len = file.len().saturating_add_signed(by);
                let mut file = file.clone();
                file.resize(len, 0);
                t.file_all_ways(&file);
            }
        }
    }
}

/// Each limit absent, one below the size, at it, and one above it, in all combinations.
fn limits(t: &mut Tally) {
    for card in cards() {
        let file = card.file();
        let (w, h) = (u64::from(card.width), u64::from(card.height));
        let at = |i: usize, n: u64| [u64::MAX, n - 1, n, n + 1][i];
        let small = |i: usize, n: u64| u32::try_from(at(i, n)).unwrap_or(u32::MAX);
        for i in 0..256 {
            let mut asked = NO_LIMITS;
            asked.format = (i % 2) as u32;
            asked.max_width = small(i % 4, w);
            asked.max_height = small(i / 4 % 4, h);
            asked.max_pixels = at(i / 16 % 4, w * h);
            asked.max_bytes = at(i / 64, w.div_ceil(8) * h);
            t.read(&file, &asked, file.len());
        }
    }
}

/// Every known and some unknown settings, over outputs from none to more than enough.
fn settings(t: &mut Tally) {
    for card in cards() {
        let file = card.file();
        let need = card.planes.len();
        for format in [0, 1, 2, 255, 256, u32::MAX] {
            for strict in [0, 1, 2, 255, 256, u32::MAX] {
                let asked = capi::Asked {
                    format,
                    strict,
                    ..NO_LIMITS
                };
                for room in [0, 1, need - 1, need, need + 1, need + 9] {
                    t.read(&file, &asked, room);
                    t.read(&file[..file.len() - 1], &asked, room);
                    t.read(&[], &asked, room);
                }
            }
        }
    }
}
