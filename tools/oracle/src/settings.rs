//! The answers of the test of the limits. A case's input holds all arguments.

use crate::answer::Answer;
use crate::options::DecodeOptions;
use crate::planes::format_of;
use crate::readers::u32_at;

/// Input: which limits; width and height, four bytes each; the plane's bytes in eight; the
/// offset, which our port takes, in two; a letter for each limit that is set by itself.
pub fn check(input: &[u8]) -> Answer {
    let (width, height) = (u32_at(input, 1), u32_at(input, 5));
    let bytes = u64::from_be_bytes(input[9..17].try_into().expect("eight bytes"));
    let offset = usize::from(input[17]) * 256 + usize::from(input[18]);
    match options_at(input).check(width, height, bytes) {
        Ok(()) => Answer::of(&[]),
        Err(error) => Answer::refused(&error, offset),
    }
}

/// The settings of reading a file: the offset's place holds the format and 1 for strict.
pub fn reading(input: &[u8]) -> DecodeOptions {
    options_at(input)
        .with_format(format_of(input[17]))
        .with_strict(input[18] == 1)
}

#[allow(deprecated)]
fn options_at(input: &[u8]) -> DecodeOptions {
    let (width, height) = (u32_at(input, 1), u32_at(input, 5));
    let bytes = u64::from_be_bytes(input[9..17].try_into().expect("eight bytes"));
    match input[0] {
        0 => limited(&input[19..23], width, height, bytes),
        1 => DecodeOptions::new(),
        2 => crate::limits::WbmpLimits::default().into(),
        3 => crate::limits::WbmpLimits::unbounded().into(),
        _ => DecodeOptions::new().unlimited(),
    }
}

fn limited(letters: &[u8], width: u32, height: u32, bytes: u64) -> DecodeOptions {
    let pixels = u64::from(width) * u64::from(height);
    let small = |n: Option<u64>| n.map(|n| u32::try_from(n).expect("a limit of 32 bits"));
    DecodeOptions::new()
        .with_max_width(small(limit(letters[0], width.into())))
        .with_max_height(small(limit(letters[1], height.into())))
        .with_max_pixels(limit(letters[2], pixels))
        .with_max_bytes(limit(letters[3], bytes))
}

/// 0 stands for no limit, 1 for one below `n`, 2 for `n`, 3 for one above.
fn limit(letter: u8, n: u64) -> Option<u64> {
    match letter {
        0 => None,
        letter => Some(n + u64::from(letter) - 2),
    }
}
