//! The sizes that are timed.

use crate::pictures::Card;

const TINY: [Card; 6] = [
    Card::new(1, 1),
    Card::new(2, 2),
    Card::new(3, 3),
    Card::new(5, 5),
    Card::new(8, 8),
    Card::new(16, 16),
];
const SCREENS: [Card; 10] = [
    Card::new(96, 65),
    Card::new(101, 80),
    Card::new(128, 64),
    Card::new(128, 160),
    Card::new(176, 208),
    Card::new(240, 320),
    Card::new(320, 240),
    Card::new(400, 240),
    Card::new(480, 320),
    Card::new(560, 320),
];
/// Past the first and second cache, and with a size of three bytes.
const LARGE: [Card; 6] = [
    Card::new(640, 480),
    Card::new(1021, 1024),
    Card::new(1024, 1024),
    Card::new(2048, 2048),
    Card::new(16384, 16),
    Card::new(16, 16384),
];
const NARROW: [u32; 15] = [1, 2, 3, 7, 8, 9, 15, 16, 17, 23, 24, 25, 31, 32, 33];
/// Cards of which there are several frames.
const SERIES: [Card; 4] = [
    Card::new(96, 65),
    Card::new(101, 80),
    Card::new(128, 64),
    Card::new(240, 320),
];

pub fn sizes() -> impl Iterator<Item = Card> {
    [&TINY[..], &SCREENS, &LARGE].concat().into_iter()
}

/// Narrow cards of 4,096 rows.
pub fn high() -> impl Iterator<Item = Card> {
    NARROW.into_iter().map(|width| Card::new(width, 4096))
}

/// Narrow cards of 256 rows, of every width.
pub fn low() -> impl Iterator<Item = Card> {
    (1..=33).map(|width| Card::new(width, 256))
}

/// Around the most frames that are read, which is 16.
pub fn all_frames() -> impl Iterator<Item = Card> {
    SERIES
        .into_iter()
        .flat_map(|card| [15, 16, 17].map(|frames| card.of(frames)))
}

/// Files that are made and written: of one frame and of 16.
pub fn files() -> impl Iterator<Item = Card> {
    let several = TINY[4..].iter().chain(&SERIES).map(|card| card.of(16));
    sizes().chain(several)
}

/// What sessions make and read.
pub const LONG: [Card; 2] = [Card::new(1024, 1024), Card::new(1021, 1024)];
