//! Whole reading and info.

use crate::capi::{self, Asked, Image, Info};
use crate::lent::{Copies, Lent};
use crate::rounds::{Times, medians};
use oracle::calls;
use oracle::image::WbmpPixelFormat::{MonoBlack, MonoWhite};
use oracle::options::DecodeOptions;
use std::hint::black_box;

/// 0 asks for the native format, 1 for the inverted one; the default limits, not strict.
pub fn asked(format: u32) -> Asked {
    Asked {
        format,
        strict: 0,
        max_width: u32::MAX,
        max_height: u32::MAX,
        max_pixels: u64::MAX,
        max_bytes: 1 << 30,
    }
}

/// The same for the Rust.
pub fn options(format: u32) -> DecodeOptions {
    DecodeOptions::new().with_format([MonoBlack, MonoWhite][format as usize])
}

/// The planes that the Rust reads, end to end.
pub fn planes(file: &[u8], format: u32) -> Vec<u8> {
    let frames = calls::decode_frames(file, &options(format)).expect("a good file");
    frames
        .into_iter()
        .flat_map(|frame| frame.image.into_raw())
        .collect()
}

/// Whole reading, with memcpy of the file beside it. The Rust makes its own buffers, as it always
/// does; ours are lent.
pub fn read(file: &[u8], format: u32, rounds: usize) -> Times {
    let (asked, options) = (asked(format), options(format));
    let files = Copies::new(file);
    let mut out = Lent::new(file.len(), 64);
    let mut copied = Lent::new(file.len(), 64);
    let mut image = Image::default();
    let times = medians(
        rounds,
        [
            &mut |round| drop(black_box(calls::decode_frames(files.of(round), &options))),
            &mut |round| {
                let refusal = capi::read(files.of(round), &asked, out.next(), &mut image);
                assert_eq!(refusal, 0);
            },
            &mut |round| black_box(copied.next()).copy_from_slice(files.of(round)),
        ],
    );
    assert!(
        planes(file, format) == out.last()[..image.written],
        "reading differs"
    );
    Times::of_three(times)
}

pub fn info(file: &[u8], rounds: usize) -> Times {
    let mut told = Info::default();
    let times = medians(
        rounds,
        [
            &mut |_| drop(black_box(calls::info(black_box(file)))),
            &mut |_| assert_eq!(capi::info(black_box(file), black_box(&mut told)), 0),
        ],
    );
    let rust = calls::info(file).expect("a good file");
    let sizes = (rust.width, rust.height, rust.frames, rust.data_offset);
    assert_eq!(sizes, (told.width, told.height, told.frames, told.body));
    Times::of_two(times)
}
