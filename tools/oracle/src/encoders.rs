//! The answers of whole writing and making. Input: 1 for strict; the format, or 0 for threshold, 1
//! for dither, 2 for ordered; width, height and count in four bytes each; the stride in eight
//! bytes, or the rule's number, the length of the work buffer and six bytes; the length of planes
//! or gray in two; these; fields.
//!
//! Where document 01 sets an order that the Rust has not, or asks what the Rust cannot be asked,
//! its number is given: 8 before 21, 21 before 26, 27, 20 and 22, and 29 and 28 before 22.

use crate::answer::Answer;
use crate::api;
use crate::encoder::encode_frames;
use crate::error::Result;
use crate::image::{Frame, PixelFormat, Plane, WbmpImage};
use crate::numbers::number_of;
use crate::options::{EncodeOptions, Quantize};
use crate::planes::format_of;
use crate::readers::u32_at;
use crate::scans::{Scan, ordered_bits};
use crate::writers::{Fields, fields_at, fields_refused};

/// Where planes or gray start.
pub const BODY: usize = 24;
/// The main image and at most 15 that follow it.
const FRAMES: u32 = 16;

/// The fields in an input.
pub fn fields_in(input: &[u8]) -> &[u8] {
    Arguments::at(input).fields
}

struct Arguments<'a> {
    strict: bool,
    width: u32,
    height: u32,
    count: u32,
    body: &'a [u8],
    fields: &'a [u8],
}

impl Arguments<'_> {
    fn at(input: &[u8]) -> Arguments<'_> {
        let size = usize::from(input[22]) * 256 + usize::from(input[23]);
        let (body, fields) = input[BODY..].split_at(size);
        Arguments {
            strict: input[0] == 1,
            width: u32_at(input, 2),
            height: u32_at(input, 6),
            count: u32_at(input, 10),
            body,
            fields,
        }
    }

    /// 8 and 21, which document 01 puts before all else.
    fn refused(&self) -> Option<u8> {
        if self.width == 0 || self.height == 0 {
            return Some(8);
        }
        let counted = (1..=FRAMES).contains(&self.count);
        (!counted).then_some(21)
    }

    /// The file of the images.
    fn file(&self, images: Result<Vec<WbmpImage>>) -> Answer {
        let images = match images {
            Ok(images) => images,
            Err(error) => return Answer::refused(&error, 0),
        };
        let given = match fields_at(self.fields) {
            Fields::Given(fields) => Some(fields),
            Fields::Absent => None,
            _ => return fields_refused(self.fields),
        };
        let options = EncodeOptions::new()
            .with_ext_fields(given)
            .with_strict(self.strict);
        match written(&images, &options) {
            Ok(file) => Answer::written(Ok(()), file),
            Err(error) => Answer::refused(&error, 0),
        }
    }
}

/// The Rust's writers of several images and of one agree.
fn written(images: &[WbmpImage], options: &EncodeOptions) -> Result<Vec<u8>> {
    let told = |r: &Result<Vec<u8>>| r.as_ref().map_err(|e| e.to_string()).cloned();
    let file = encode_frames(images, options);
    let frames: Vec<Frame> = images.iter().map(|i| Frame::new(i.clone(), 0)).collect();
    assert_eq!(told(&file), told(&api::encode_all(&frames, options)));
    if let [image] = images {
        assert_eq!(told(&file), told(&api::encode(image, options)));
    }
    file
}

/// Planes: the Rust gets each by itself, the last with the surplus.
pub fn images(input: &[u8]) -> Answer {
    let a = Arguments::at(input);
    let stride = u64::from_be_bytes(input[14..22].try_into().expect("eight bytes"));
    let format = format_of(input[1]);
    let image = |plane: &[u8]| planar(&a, format, stride as usize, plane);
    if let Some(number) = a.refused() {
        agreed(a.count, image(a.body), number);
        return Answer::of(&[number.into()]);
    }
    let row = u128::from(a.width.div_ceil(8));
    let need = u128::from(stride) * u128::from(a.height - 1) + row;
    a.file(
        (0..a.count)
            .map(|k| image(part(a.body, k, a.count, need)))
            .collect(),
    )
}

fn planar(a: &Arguments, format: PixelFormat, stride: usize, plane: &[u8]) -> Result<WbmpImage> {
    let planes = vec![Plane::new(stride, plane.to_vec())];
    WbmpImage::new(a.width, a.height, format, planes)
}

/// The Rust gives the same number where only the count is bad, and where there is an image and its
/// size is 0.
fn agreed(count: u32, image: Result<WbmpImage>, number: u8) {
    match image {
        Err(error) if number == 8 && count > 0 => assert_eq!(number_of(&error), 8),
        Err(_) => {}
        Ok(image) => {
            let images = vec![image; count.min(FRAMES + 1) as usize];
            let error = encode_frames(&images, &EncodeOptions::new()).expect_err("a bad count");
            assert_eq!(number_of(&error), number);
        }
    }
}

/// Part k of so many, each of `need` bytes as far as they are there; the last has the surplus.
fn part(body: &[u8], k: u32, count: u32, need: u128) -> &[u8] {
    let within = |n: u128| n.min(body.len() as u128) as usize;
    let start = within(need.saturating_mul(k.into()));
    let end = within(need.saturating_mul((k + 1).into()));
    match k + 1 == count {
        true => &body[start..],
        false => &body[start..end],
    }
}

/// Scans of gray: the Rust gets each by itself, the last with the surplus. The ordered rule's dots
/// are worked out here.
pub fn gray(input: &[u8]) -> Answer {
    let a = Arguments::at(input);
    let (number, work) = (input[14], u64::from(input[15]));
    if let Some(number) = a.refused() {
        return Answer::of(&[number.into()]);
    }
    if input[1] == 2 && ![2, 4, 8].contains(&number) {
        return Answer::of(&[29]);
    }
    if input[1] == 1 && work < 2 * u64::from(a.width) {
        return Answer::of(&[28]);
    }
    let area = u128::from(a.width) * u128::from(a.height);
    let made = |k: u32| {
        let gray = part(a.body, k, a.count, area);
        let rule = match input[1] {
            0 => Quantize::Threshold(number),
            _ => Quantize::Dither,
        };
        let image = WbmpImage::from_gray8(a.width, a.height, gray, rule)?;
        match input[1] {
            2 => WbmpImage::from_bits(a.width, a.height, ordered(&a, gray, number)),
            _ => Ok(image),
        }
    };
    a.file((0..a.count).map(made).collect())
}

fn ordered(a: &Arguments, gray: &[u8], side: u8) -> Vec<u8> {
    let scan = Scan {
        width: a.width,
        height: a.height,
        gray,
    };
    ordered_bits(&scan, side.into())
}
