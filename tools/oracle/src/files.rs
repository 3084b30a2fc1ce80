//! The answers of whole reading, `info`, `sniff` and `probe`.

use crate::answer::Answer;
use crate::api::{self, Sniff};
use crate::decoder::{decode_frames, decode_image};
use crate::error::Result;
use crate::image::WbmpImage;
use crate::options::DecodeOptions;
use crate::replay;
use crate::settings::reading;

/// How long the settings are that stand before a file.
pub const SETTINGS: usize = 23;

/// Input: the settings, then the file.
pub fn image(input: &[u8]) -> Answer {
    read(input, |file, options| {
        decode_image(file, options).map(|image| vec![image])
    })
}

/// Input: the settings, then the file.
pub fn frames(input: &[u8]) -> Answer {
    read(input, |file, options| {
        let frames = decode_frames(file, options)?;
        Ok(frames.into_iter().map(|frame| frame.image).collect())
    })
}

type Decode = fn(&[u8], &DecodeOptions) -> Result<Vec<WbmpImage>>;

fn read(input: &[u8], decode: Decode) -> Answer {
    let options = reading(input);
    let file = &input[SETTINGS..];
    let (header, at) = replay::read(file, !options.strict, options.strict);
    let images = match decode(file, &options) {
        Ok(images) => images,
        Err(error) => return Answer::refused(&error, at.offset),
    };
    let header = header.expect("the header of an image that was read");
    let [kind, start, len, pairs] = at.fields(&header, file);
    let (width, height, frames) = (header.width, header.height, images.len());
    let planes = images.into_iter().map(|image| {
        assert_eq!((image.width, image.height), (width, height));
        assert_eq!(image.format, options.format);
        assert!(image.is_tightly_packed());
        image.into_raw()
    });
    let output = planes.collect::<Vec<_>>().concat();
    let body = header.data_offset as u64;
    let fix = header.fix_header.into();
    let sizes = [output.len() as u64, width.into(), height.into()];
    let [bytes, width, height] = sizes;
    let frames = frames as u64;
    Answer {
        output,
        ..Answer::of(&[
            0, bytes, width, height, frames, body, fix, kind, start, len, pairs,
        ])
    }
}

/// Input: the file.
pub fn info(file: &[u8]) -> Answer {
    let (header, at) = replay::read(file, true, false);
    let info = match api::info(file) {
        Ok(info) => info,
        Err(error) => return Answer::refused(&error, at.offset),
    };
    let header = header.expect("the header that was told");
    assert_eq!(header.ext_fields, info.ext_fields);
    let [kind, start, len, pairs] = at.fields(&header, file);
    let (width, height) = (info.width.into(), info.height.into());
    let (frames, fix) = (info.frames.into(), info.fix_header.into());
    let body = info.data_offset as u64;
    Answer::of(&[0, body, width, height, frames, fix, kind, start, len, pairs])
}

/// Input: the file. 0 stands for neither, 1 for exact, 2 for truncated.
pub fn sniff(file: &[u8]) -> Answer {
    let number = match api::sniff(file) {
        None => 0,
        Some(Sniff::Exact) => 1,
        Some(Sniff::Truncated) => 2,
    };
    Answer::of(&[0, 0, number])
}

/// Input: the file.
pub fn probe(file: &[u8]) -> Answer {
    Answer::of(&[0, 0, api::probe(file).into()])
}
