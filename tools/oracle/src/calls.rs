//! The Rust's calls as they are, for tools outside this crate: some are private to it.

use crate::api::{self, Sniff};
use crate::decoder;
use crate::error::Result;
use crate::image::{Frame, ImageInfo, WbmpImage};
use crate::options::{DecodeOptions, Quantize};

/// 0 stands for neither, 1 for exact, 2 for truncated.
pub fn sniff(file: &[u8]) -> u8 {
    match api::sniff(file) {
        None => 0,
        Some(Sniff::Exact) => 1,
        Some(Sniff::Truncated) => 2,
    }
}

pub fn info(file: &[u8]) -> Result<ImageInfo> {
    api::info(file)
}

pub fn decode_frames(file: &[u8], options: &DecodeOptions) -> Result<Vec<Frame>> {
    decoder::decode_frames(file, options)
}

pub fn from_gray8(width: u32, height: u32, gray: &[u8], rule: Quantize) -> Result<WbmpImage> {
    WbmpImage::from_gray8(width, height, gray, rule)
}
