//! Planes from gray samples by threshold 128 or dithering, files of them, and files of planes.

use crate::kernels::{self, Making};
use crate::lent::Lent;
use crate::pictures::{Card, Picture};
use crate::rounds::{Times, medians};
use oracle::calls;
use oracle::encoder::encode_frames;
use oracle::image::WbmpPixelFormat::{MonoBlack, MonoWhite};
use oracle::image::{Plane, WbmpImage};
use oracle::options::{EncodeOptions, Quantize};
use std::hint::black_box;

fn rule(dithered: bool) -> Quantize {
    if dithered {
        Quantize::Dither
    } else {
        Quantize::Threshold(128)
    }
}

/// A plane by the kernels alone.
pub fn quantize(card: Card, picture: Picture, dithered: bool, rounds: usize) -> Times {
    let Card { width, height, .. } = card;
    let gray = card.gray(picture);
    let plane =
        || calls::from_gray8(width, height, black_box(&gray), rule(dithered)).expect("a scan");
    let mut out = vec![0; card.plane()];
    let mut work = vec![0; 2 * width as usize];
    let times = medians(
        rounds,
        [&mut |_| drop(black_box(plane())), &mut |_| {
            let gray = black_box(&gray);
            let refusal = match dithered {
                true => kernels::dither(width, height, gray, &mut work, &mut out),
                false => kernels::threshold(width, height, gray, 128, &mut out),
            };
            assert_eq!(refusal, 0);
        }],
    );
    assert!(plane().into_raw() == out, "planes differ");
    Times::of_two(times)
}

/// A file of scans as the Rust makes it.
pub fn rust_file(card: Card, gray: &[u8], dithered: bool) -> Vec<u8> {
    let frames = gray.chunks_exact(gray.len() / card.frames as usize);
    let images =
        frames.map(|gray| calls::from_gray8(card.width, card.height, gray, rule(dithered)));
    let images: Result<Vec<WbmpImage>, _> = images.collect();
    encode_frames(&images.expect("scans"), &EncodeOptions::default()).expect("at most 16 frames")
}

/// A whole file from scans.
pub fn make(card: Card, picture: Picture, dithered: bool, rounds: usize) -> Times {
    let gray = card.gray(picture);
    let making = Making { card, dithered };
    let mut out = vec![0; card.header().len() + card.frames as usize * card.plane()];
    let mut work = vec![0; 2 * card.width as usize];
    let times = medians(
        rounds,
        [
            &mut |_| drop(black_box(rust_file(card, black_box(&gray), dithered))),
            &mut |_| {
                let refusal = kernels::make(making, black_box(&gray), &mut work, &mut out);
                assert_eq!(refusal, 0);
            },
        ],
    );
    assert!(rust_file(card, &gray, dithered) == out, "files differ");
    Times::of_two(times)
}

/// A whole file from planes in one format.
pub fn write(card: Card, inverted: bool, rounds: usize) -> Times {
    let planes = card.planes(Picture::Random);
    let format = if inverted { MonoWhite } else { MonoBlack };
    let image = |plane: &[u8]| {
        let plane = Plane::new(card.row(), plane.to_vec());
        WbmpImage::new(card.width, card.height, format, vec![plane]).expect("a plane")
    };
    let images: Vec<WbmpImage> = planes.chunks_exact(card.plane()).map(image).collect();
    let file = || encode_frames(black_box(&images), &EncodeOptions::default()).expect("planes");
    let mut out = Lent::new(file().len(), 64);
    let times = medians(
        rounds,
        [&mut |_| drop(black_box(file())), &mut |_| {
            let refusal = kernels::write(card, black_box(&planes), inverted, out.next());
            assert_eq!(refusal, 0);
        }],
    );
    assert!(file() == out.last()[..file().len()], "files differ");
    Times::of_two(times)
}
