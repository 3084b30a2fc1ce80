//! The answers of the functions on planes. A case's input holds all arguments.

use crate::answer::Answer;
use crate::image::{ColorInfo, Metadata, PixelFormat, Plane, WbmpImage};
use crate::readers::u32_at;

/// Input: a byte that names two formats; row and column of a dot, width and height, a byte
/// each, where 255 stands for 4,294,967,295; the stride in two bytes, where those from FF00 on
/// stand for large ones; the plane.
struct Arguments {
    image: WbmpImage,
    to: PixelFormat,
    x: u32,
    y: u32,
}

/// The image is put together here, for `new` refuses short planes.
fn arguments(input: &[u8]) -> Arguments {
    let size = |at: usize| match input[at] {
        255 => u32::MAX,
        byte => byte.into(),
    };
    let (width, height) = (size(3), size(4));
    let stride = match input[5] {
        0xFF => within(
            width,
            height,
            (usize::from(input[6]) << 56) | 0x00FF_FFFF_FFFF_FFFF,
        ),
        high => usize::from(high) * 256 + usize::from(input[6]),
    };
    Arguments {
        image: WbmpImage {
            width,
            height,
            format: format_of(input[0] % 2),
            planes: vec![Plane::new(stride, input[7..].to_vec())],
            color: ColorInfo::wbmp_default(),
            metadata: Metadata::default(),
        },
        to: format_of(input[0] / 2),
        x: size(2),
        y: size(1),
    }
}

/// The stride, unless an index of the plane's last row would pass 64 bits: there the Rust wraps,
/// and we take the row for missing, as it is with the stride 2^32 that stands for it then.
fn within(width: u32, height: u32, stride: usize) -> usize {
    let steps = (height as usize).saturating_sub(1);
    let last = stride
        .checked_mul(steps)
        .and_then(|n| n.checked_add(width.div_ceil(8) as usize));
    last.map_or(1 << 32, |_| stride)
}

pub fn format_of(number: u8) -> PixelFormat {
    match number {
        0 => PixelFormat::MonoBlack,
        _ => PixelFormat::MonoWhite,
    }
}

pub fn is_white(input: &[u8]) -> Answer {
    let a = arguments(input);
    Answer::of(&[0, 0, a.image.is_white(a.x, a.y).into()])
}

pub fn wire_bits(input: &[u8]) -> Answer {
    let a = arguments(input);
    Answer::written(Ok(()), a.image.wire_bits().to_vec())
}

/// The whole plane afterwards.
pub fn convert_format(input: &[u8]) -> Answer {
    let mut a = arguments(input);
    a.image.convert_format(a.to);
    Answer::written(Ok(()), a.image.into_raw())
}

/// Input: width and height, four bytes each, the stride in eight, the plane's length in one.
pub fn geometry(input: &[u8]) -> Answer {
    let stride = u64::from_be_bytes(input[8..16].try_into().expect("eight bytes"));
    let plane = Plane::new(stride as usize, vec![0; input[16].into()]);
    let (width, height) = (u32_at(input, 0), u32_at(input, 4));
    match WbmpImage::new(width, height, PixelFormat::NATIVE, vec![plane]) {
        Ok(_) => Answer::of(&[]),
        Err(error) => Answer::refused(&error, 0),
    }
}
