//! The answers of the rules that make dots of gray. Input: the rule's number; width and height
//! in four bytes each; the gray samples. The ordered rule is not in the Rust: document 01 gives
//! its dots, worked out here by quarters.

use crate::answer::Answer;
use crate::image::WbmpImage;
use crate::options::Quantize;
use crate::readers::u32_at;

pub(crate) struct Scan<'a> {
    pub width: u32,
    pub height: u32,
    pub gray: &'a [u8],
}

impl Scan<'_> {
    fn at(input: &[u8]) -> Scan<'_> {
        Scan {
            width: u32_at(input, 1),
            height: u32_at(input, 5),
            gray: &input[9..],
        }
    }

    fn made(&self, rule: Quantize) -> Answer {
        match WbmpImage::from_gray8(self.width, self.height, self.gray, rule) {
            Ok(image) => Answer::written(Ok(()), image.into_raw()),
            Err(error) => Answer::refused(&error, 0),
        }
    }

    fn is_empty(&self) -> bool {
        self.width == 0 || self.height == 0
    }

    fn is_short(&self) -> bool {
        self.gray.len() < self.width as usize * self.height as usize
    }
}

/// The rule's number is the threshold.
pub fn threshold(input: &[u8]) -> Answer {
    Scan::at(input).made(Quantize::Threshold(input[0]))
}

/// The rule's number is the length of the work buffer, which the Rust makes itself.
pub fn dither(input: &[u8]) -> Answer {
    let scan = Scan::at(input);
    if !scan.is_empty() && u64::from(input[0]) < 2 * u64::from(scan.width) {
        return Answer::of(&[28]);
    }
    scan.made(Quantize::Dither)
}

/// The rule's number is the side.
pub fn ordered(input: &[u8]) -> Answer {
    let scan = Scan::at(input);
    let side = usize::from(input[0]);
    if scan.is_empty() {
        return Answer::of(&[8]);
    }
    if ![2, 4, 8].contains(&side) {
        return Answer::of(&[29]);
    }
    if scan.is_short() {
        return Answer::of(&[22]);
    }
    Answer::written(Ok(()), ordered_bits(&scan, side))
}

pub(crate) fn ordered_bits(scan: &Scan, side: usize) -> Vec<u8> {
    let width = scan.width as usize;
    let rows = scan.gray.chunks_exact(width).take(scan.height as usize);
    let mut bits = Vec::new();
    for (y, row) in rows.enumerate() {
        let white = |x: usize, gray: u8| {
            let n = cell(side, x % side, y % side);
            usize::from(gray) * side * side >= 256 * n + 128
        };
        let dots: Vec<bool> = (0..width).map(|x| white(x, row[x])).collect();
        bits.extend(dots.chunks(8).map(packed));
    }
    bits
}

/// The dots of one byte, the leftmost in the highest bit.
fn packed(dots: &[bool]) -> u8 {
    let bits = dots.iter().enumerate();
    bits.map(|(i, &white)| u8::from(white) << (7 - i)).sum()
}

/// The number at column x and row y, worked out from that of the half side.
fn cell(side: usize, x: usize, y: usize) -> usize {
    if side == 1 {
        return 0;
    }
    let half = side / 2;
    let n = cell(half, x % half, y % half);
    match (x < half, y < half) {
        (true, true) => 4 * n,
        (false, true) => 4 * n + 2,
        (true, false) => 4 * n + 3,
        (false, false) => 4 * n + 1,
    }
}
