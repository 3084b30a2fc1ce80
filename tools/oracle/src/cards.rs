//! A card that is made in pieces, read in pieces and shown: what both lists answer and leave, and
//! the dots of the made frames. Input: the length of the making's input in two bytes, this, and
//! the reading's input; the file that its pieces are of is the making's output, the opening's first.

use crate::answer::Answer;
use crate::decode_lists;
use crate::encode_lists::{self, Opening, opening_at};
use crate::image::WbmpImage;
use crate::lists::short;

pub fn card(input: &[u8]) -> Answer {
    let (making, reading) = input[2..].split_at(short(input, 0));
    let made = encode_lists::list(making);
    let mut read = decode_lists::list_over(reading, &output(&made));
    let (opening, rest) = opening_at(making);
    let samples = &rest[..short(making, 18)];
    let header = read.then.as_mut().expect("the header");
    header.then = Some(Box::new(dots(&opening, samples)));
    Answer {
        then: Some(Box::new(read)),
        ..made
    }
}

/// All outputs of a making, one behind the other.
pub fn output(made: &Answer) -> Vec<u8> {
    let stages = made.stages.iter().flat_map(|left| left.out.clone());
    made.output.iter().copied().chain(stages).collect()
}

/// How many dots the frames of the samples have, the bytes of a row and of a plane, and the dots,
/// a bit each.
fn dots(opening: &Opening, samples: &[u8]) -> Answer {
    let (width, height) = (opening.width, opening.height);
    let mut white = Vec::new();
    for scan in samples.chunks_exact(width as usize * height as usize) {
        let bits = opening.made(width, height, scan);
        let image = WbmpImage::from_bits(width, height, bits).expect("a plane");
        let row = |y: u32| (0..width).map(move |x| (x, y));
        white.extend((0..height).flat_map(row).map(|(x, y)| image.is_white(x, y)));
    }
    let row = u64::from(width.div_ceil(8));
    let bits = |dots: &[bool]| {
        let bits = dots.iter().enumerate();
        bits.map(|(i, &white)| u8::from(white) << (7 - i)).sum()
    };
    Answer {
        output: white.chunks(8).map(bits).collect(),
        ..Answer::of(&[white.len() as u64, row, row * u64::from(height)])
    }
}
