//! What the Rust answers, in the numbers of the C functions.

use crate::capi::{Asked, Image, Info};
use oracle::calls;
use oracle::error::WbmpError;
use oracle::image::WbmpPixelFormat::{MonoBlack, MonoWhite};
use oracle::numbers::number_of;
use oracle::options::DecodeOptions;
use oracle::replay;

/// A number and its place.
pub type Refusal = (u8, u64);

pub const NO_LIMITS: Asked = Asked {
    format: 0,
    strict: 0,
    max_width: u32::MAX,
    max_height: u32::MAX,
    max_pixels: u64::MAX,
    max_bytes: u64::MAX,
};

/// A header as the oracle's replay tells it, with the place that the Rust keeps to itself:
/// 0 and then body, width, height, FixHeader, kind, start, length and pairs; or a refusal.
fn header(file: &[u8], strict: bool) -> [u64; 9] {
    let answer = replay::header(file, !strict, strict);
    let mut numbers = [0; 9];
    let told = &answer.accepted[0];
    numbers[..told.len()].copy_from_slice(told);
    numbers
}

/// The number of an error, and its place: where the header is refused, or else its body's start.
fn refusal(error: &WbmpError, header: &[u64; 9]) -> Refusal {
    let number = number_of(error);
    if header[0] != 0 {
        assert_eq!(u64::from(number), header[0], "the replay's refusal");
    }
    (number, header[1])
}

pub fn info(file: &[u8]) -> Result<Info, Refusal> {
    let header = header(file, false);
    let told = calls::info(file).map_err(|error| refusal(&error, &header))?;
    Ok(Info {
        width: told.width,
        height: told.height,
        frames: told.frames,
        body: told.data_offset,
        fix_header: told.fix_header,
        fields_kind: header[5] as u8,
        fields_start: header[6] as usize,
        fields_len: header[7] as usize,
        pairs: header[8] as usize,
    })
}

/// The numbers and the planes of a reading into an output of `room` bytes. The Rust has no
/// counterpart of 29 and 25: they are tested here, in document 01's order.
pub fn read(file: &[u8], asked: &Asked, room: usize) -> Result<(Image, Vec<u8>), Refusal> {
    if asked.format > 1 || asked.strict > 1 {
        return Err((29, 0));
    }
    let frames = calls::decode_frames(file, &options(asked))
        .map_err(|error| refusal(&error, &header(file, asked.strict == 1)))?;
    let (width, height) = (frames[0].image.width, frames[0].image.height);
    let count = frames.len() as u32;
    let planes: Vec<u8> = frames
        .into_iter()
        .flat_map(|f| f.image.into_raw())
        .collect();
    if room < planes.len() {
        return Err((25, 0));
    }
    let image = Image {
        width,
        height,
        frames: count,
        written: planes.len(),
    };
    Ok((image, planes))
}

fn options(asked: &Asked) -> DecodeOptions {
    let small = |n: u32| (n != u32::MAX).then_some(n);
    let large = |n: u64| (n != u64::MAX).then_some(n);
    DecodeOptions::new()
        .with_format([MonoBlack, MonoWhite][asked.format as usize])
        .with_strict(asked.strict == 1)
        .with_max_width(small(asked.max_width))
        .with_max_height(small(asked.max_height))
        .with_max_pixels(large(asked.max_pixels))
        .with_max_bytes(large(asked.max_bytes))
}
