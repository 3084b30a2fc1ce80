//! The making session as document 01 tells it: a plain machine that keeps the opening's arguments,
//! open or closed, and the samples taken. The Rust makes the header and the dots, the ordered rule
//! aside, whose dots are worked out by quarters.
//!
//! Input of a list: 1 for strict; 0 for threshold, 1 for dither, 2 for ordered; width and height in
//! four bytes each; the rule's number; what outputs hold before a call; the lengths of the work
//! buffer and of the output lent to the opening, of the fields and of the samples, two bytes each;
//! fields, samples and stages.

use crate::answer::{Answer, trimmed};
use crate::header::write_header_ext;
use crate::image::WbmpImage;
use crate::lists::{Call, Left, Stage, short, stages_at};
use crate::numbers::number_of;
use crate::options::Quantize;
use crate::readers::u32_at;
use crate::scans::{Scan, ordered_bits};
use crate::writers::{Fields, fields_at, fields_refused};

/// Where the fields start in the input.
pub const FIELDS: usize = 20;
/// The main image and at most 15 that follow it.
const FRAMES: u128 = 16;
/// The largest frame that is made whole; of a larger one the begun rows are.
const WHOLE: u128 = 65536;

/// The opening's arguments.
#[derive(Clone)]
pub struct Opening {
    pub strict: bool,
    pub kind: u8,
    pub width: u32,
    pub height: u32,
    pub number: u8,
    pub fields: Vec<u8>,
}

#[derive(Clone)]
pub struct Making {
    opening: Opening,
    open: bool,
    taken: Vec<u8>,
}

/// An answer's three numbers.
pub type Numbers = [u64; 3];

impl Opening {
    /// The header, or a refusal: 8, 29, 28, fields, 25.
    fn header(&self, work: usize, out: usize) -> Result<Vec<u8>, u64> {
        if self.width == 0 || self.height == 0 {
            return Err(8);
        }
        if self.kind == 2 && ![2, 4, 8].contains(&self.number) {
            return Err(29);
        }
        if !self.served(work) {
            return Err(28);
        }
        let header = self.written()?;
        match header.len() <= out {
            true => Ok(header),
            false => Err(25),
        }
    }

    fn served(&self, work: usize) -> bool {
        self.kind != 1 || work as u64 >= 2 * u64::from(self.width)
    }

    fn written(&self) -> Result<Vec<u8>, u64> {
        let given = match fields_at(&self.fields) {
            Fields::Given(fields) => Some(fields),
            Fields::Absent => None,
            _ => return Err(fields_refused(&self.fields).accepted[0][0]),
        };
        let mut out = Vec::new();
        match write_header_ext(
            self.width,
            self.height,
            given.as_ref(),
            self.strict,
            &mut out,
        ) {
            Ok(()) => Ok(out),
            Err(error) => Err(number_of(&error).into()),
        }
    }

    fn row(&self) -> u128 {
        u128::from(self.width.div_ceil(8))
    }

    fn scan(&self) -> u128 {
        u128::from(self.width) * u128::from(self.height)
    }

    /// How many bytes so many samples finish: each full row all of its bytes, c samples of a begun
    /// one c / 8 of them.
    fn finished(&self, samples: usize) -> u128 {
        let samples = samples as u128;
        let width = u128::from(self.width);
        samples / width * self.row() + samples % width / 8
    }

    /// The finished bytes of the samples, in sequence.
    fn bytes(&self, samples: &[u8]) -> Vec<u8> {
        let scan = usize::try_from(self.scan()).unwrap_or(usize::MAX);
        samples
            .chunks(scan)
            .flat_map(|part| self.frame(part))
            .collect()
    }

    /// The finished bytes of a frame's samples: the frame is made with zeros behind them.
    fn frame(&self, samples: &[u8]) -> Vec<u8> {
        let (width, height) = self.stand_in(samples.len());
        let mut gray = samples.to_vec();
        gray.resize(width as usize * height as usize, 0);
        let mut bits = self.made(width, height, &gray);
        bits.truncate(self.finished(samples.len()) as usize);
        bits
    }

    /// The size; for a large frame that of its begun rows, of one not whole the front.
    fn stand_in(&self, samples: usize) -> (u32, u32) {
        if self.scan() <= WHOLE {
            return (self.width, self.height);
        }
        match u32::try_from(samples).expect("samples") {
            n if n < self.width && self.kind != 1 => (n.div_ceil(8) * 8, 1),
            n => (self.width, n.div_ceil(self.width)),
        }
    }

    pub fn made(&self, width: u32, height: u32, gray: &[u8]) -> Vec<u8> {
        let rule = match self.kind {
            0 => Quantize::Threshold(self.number),
            1 => Quantize::Dither,
            _ => {
                let scan = Scan {
                    width,
                    height,
                    gray,
                };
                return ordered_bits(&scan, self.number.into());
            }
        };
        let image = WbmpImage::from_gray8(width, height, gray, rule);
        image.expect("a whole scan").into_raw()
    }
}

impl Making {
    /// The session, and the header or the refusal's number; refused, the session is closed.
    pub fn open(opening: Opening, work: usize, out: usize) -> (Making, Result<Vec<u8>, u64>) {
        let header = opening.header(work, out);
        let session = Making {
            opening,
            open: header.is_ok(),
            taken: Vec::new(),
        };
        (session, header)
    }

    /// The answer, and the bytes written.
    pub fn feed(&mut self, piece: &[u8], work: usize, out: usize) -> (Numbers, Vec<u8>) {
        if !self.open {
            return ([30, 0, 0], Vec::new());
        }
        if !self.opening.served(work) {
            return ([28, 0, 0], Vec::new());
        }
        let before = self.opening.bytes(&self.taken);
        let most = (0..=piece.len()).rev().find(|&n| self.fits(n, out));
        let count = most.expect("no sample fits");
        self.taken.extend_from_slice(&piece[..count]);
        let after = self.opening.bytes(&self.taken);
        let written = after[before.len()..].to_vec();
        ([0, count as u64, written.len() as u64], written)
    }

    /// Whether so many more samples are within 16 frames and finish no more bytes than `out`.
    fn fits(&self, n: usize, out: usize) -> bool {
        let (before, after) = (self.taken.len(), self.taken.len() + n);
        let finished = self.opening.finished(after) - self.opening.finished(before);
        after as u128 <= FRAMES * self.opening.scan() && finished <= out as u128
    }

    pub fn is_open(&self) -> bool {
        self.open
    }

    pub fn close(&mut self) -> Numbers {
        if !self.open {
            return [30, 0, 0];
        }
        let samples = self.taken.len() as u128;
        if samples == 0 || samples % self.opening.scan() != 0 {
            return [22, 0, 0];
        }
        self.open = false;
        [0; 3]
    }

    fn stage(&mut self, stage: &Stage, samples: &[u8], mark: u8) -> Left {
        let mut left = Left {
            answers: Vec::new(),
            out: Vec::new(),
            buffer: Vec::new(),
            asked: Vec::new(),
        };
        for call in &stage.calls {
            let (answer, mut out) = self.call(call, samples);
            out.resize(call.out, mark);
            left.answers.push(answer);
            left.out.extend(out);
        }
        left.asked = self.asked();
        left
    }

    /// 1 where it is closed, and how many frames are done.
    fn asked(&self) -> Vec<u64> {
        let frames = (self.taken.len() as u128).checked_div(self.opening.scan());
        trimmed(&[u64::from(!self.open), frames.unwrap_or(0) as u64])
    }

    pub fn call(&mut self, call: &Call, samples: &[u8]) -> (Numbers, Vec<u8>) {
        match call.feeds {
            true => self.feed(call.piece(samples), call.buffer, call.out),
            false => (self.close(), Vec::new()),
        }
    }
}

/// The fields in an input.
pub fn fields_in(input: &[u8]) -> &[u8] {
    &input[FIELDS..FIELDS + short(input, 16)]
}

/// The opening in an input, and what stands behind its fields.
pub fn opening_at(input: &[u8]) -> (Opening, &[u8]) {
    let (fields, rest) = input[FIELDS..].split_at(short(input, 16));
    let opening = Opening {
        strict: input[0] == 1,
        kind: input[1],
        width: u32_at(input, 2),
        height: u32_at(input, 6),
        number: input[10],
        fields: fields.to_vec(),
    };
    (opening, rest)
}

/// What a list answers and leaves. The opening's numbers, then the output lent to it.
pub fn list(input: &[u8]) -> Answer {
    let (opening, rest) = opening_at(input);
    let (samples, stages) = rest.split_at(short(input, 18));
    let (mark, out) = (input[11], short(input, 14));
    let (mut session, header) = Making::open(opening, short(input, 12), out);
    let numbers = match &header {
        Ok(header) => [0, header.len() as u64],
        Err(number) => [*number, 0],
    };
    let mut output = header.unwrap_or_default();
    output.resize(out, mark);
    let stages = stages_at(stages);
    Answer {
        output,
        stages: stages
            .iter()
            .map(|stage| session.stage(stage, samples, mark))
            .collect(),
        ..Answer::of(&numbers)
    }
}
