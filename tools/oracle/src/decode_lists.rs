//! The reading session as document 01 tells it: a plain machine that keeps the opening's arguments,
//! open or closed, the bytes taken and a refusal met. The Rust reads: the bytes taken and a piece
//! whole, and the planes in the asked format.
//!
//! Input of a list: the settings; what outputs and the extension buffer hold at first; the lengths
//! of the extension buffer lent to the opening and of the file, two bytes each; file and stages.

use std::ops::Range;

use crate::answer::{Answer, fields_numbers, trimmed};
use crate::decoder::{decode_frames, parse_header_for};
use crate::ext::{FixHeaderField, parse_ext_fields};
use crate::files::SETTINGS;
use crate::header::{ParsedHeader, write_header};
use crate::lists::{Call, Left, Stage, short, stages_at};
use crate::mbi::{read_mbi_u32, read_mbi_u32_strict};
use crate::numbers::number_of;
use crate::options::DecodeOptions;
use crate::replay;
use crate::settings::reading;

/// Where the file starts in the input.
pub const FILE: usize = SETTINGS + 5;
/// The least extension buffer.
pub const EXTENSION: usize = 4118;
/// How long the extension buffer is of which the front is lent.
pub const BUFFER: usize = 4200;
/// The main image and at most 15 that follow it.
const FRAMES: u128 = 16;
/// The largest plane that is read whole; of a larger one the begun rows are.
const WHOLE: u128 = 65536;
/// What a longer file may still repair.
const UNFINISHED: [u64; 5] = [1, 6, 9, 13, 20];

/// An answer's three numbers.
pub type Numbers = [u64; 3];

#[derive(Clone)]
pub struct Reading {
    options: DecodeOptions,
    open: bool,
    taken: Vec<u8>,
    met: Option<Numbers>,
}

/// What a feeding call gives: its answer, the output's bytes, and the extension bytes with where
/// they stand in the buffer.
pub struct Fed {
    pub answer: Numbers,
    pub out: Vec<u8>,
    pub extension: (usize, Vec<u8>),
}

impl Fed {
    fn refused(answer: Numbers) -> Fed {
        Fed {
            answer,
            out: Vec::new(),
            extension: (0, Vec::new()),
        }
    }
}

impl Reading {
    /// The session, and the refusal's number or 0; refused, the session is closed.
    pub fn open(options: DecodeOptions, ext: usize) -> (Reading, u64) {
        let open = ext >= EXTENSION;
        let session = Reading {
            options,
            open,
            taken: Vec::new(),
            met: None,
        };
        (session, if open { 0 } else { 28 })
    }

    /// The order is 30, the refusal met, 28, then what whole reading refuses for good.
    pub fn feed(&mut self, piece: &[u8], out: usize, ext: usize) -> Fed {
        if !self.open {
            return Fed::refused([30, 0, 0]);
        }
        if let Some(refusal) = self.met {
            return Fed::refused(refusal);
        }
        if ext < EXTENSION {
            return Fed::refused([28, 0, 0]);
        }
        let all = [&self.taken[..], piece].concat();
        match self.whole(&all) {
            Err(refusal) if !UNFINISHED.contains(&refusal[0]) => {
                self.met = Some(refusal);
                Fed {
                    extension: self.extension(&all),
                    ..Fed::refused(refusal)
                }
            }
            _ => self.take(&all, out),
        }
    }

    /// Takes the most bytes whose plane bytes fit the output. Plane bytes only grow with the bytes,
    /// so the counts that fit come first.
    fn take(&mut self, all: &[u8], out: usize) -> Fed {
        let before = self.taken.len();
        let written = self.plane_bytes(&self.taken);
        let counts: Vec<usize> = (before..=all.len()).collect();
        let fit = counts.partition_point(|&n| self.plane_bytes(&all[..n]) - written <= out);
        let now = &all[..counts[fit - 1]];
        let written = self.planes(now)[written..].to_vec();
        let extension = self.extension(now);
        self.taken = now.to_vec();
        Fed {
            answer: [0, (now.len() - before) as u64, written.len() as u64],
            out: written,
            extension,
        }
    }

    pub fn is_open(&self) -> bool {
        self.open
    }

    pub fn close(&mut self) -> Numbers {
        if !self.open {
            return [30, 0, 0];
        }
        self.open = false;
        if let Some(refusal) = self.met {
            return refusal;
        }
        match self.whole(&self.taken) {
            Ok(frames) => [0, frames, 0],
            Err(refusal) => refusal,
        }
    }

    /// Whole reading, output enough: the frame count, or the refusal.
    fn whole(&self, bytes: &[u8]) -> Result<u64, Numbers> {
        let strict = self.options.strict;
        match decode_frames(bytes, &self.options) {
            Ok(frames) => Ok(frames.len() as u64),
            Err(error) => {
                let (_, at) = replay::read(bytes, !strict, strict);
                Err([number_of(&error).into(), at.offset as u64, 0])
            }
        }
    }

    /// The header, once its last size byte is taken and nothing is refused: 1, width, height, where
    /// the body starts, FixHeader, and kind, start, length and pairs of the fields.
    fn header(&self) -> Answer {
        let strict = self.options.strict;
        match replay::read(&self.taken, !strict, strict) {
            (Ok(h), at) if self.met.is_none() => {
                let [kind, start, len, pairs] = at.fields(&h, &self.taken);
                let sizes = [h.width, h.height, h.fix_header.into()].map(u64::from);
                let [width, height, fix] = sizes;
                let body = h.data_offset as u64;
                Answer::of(&[1, width, height, body, fix, kind, start, len, pairs])
            }
            _ => Answer::of(&[]),
        }
    }

    /// How many plane bytes there are: those behind the header, up to 16 planes.
    fn plane_bytes(&self, bytes: &[u8]) -> usize {
        let Ok(header) = parse_header_for(bytes, self.options.strict) else {
            return 0;
        };
        let body = (bytes.len() - header.data_offset) as u128;
        body.min(FRAMES * plane(&header)) as usize
    }

    /// The plane bytes in the asked format: the Rust reads them with zeros behind them.
    fn planes(&self, bytes: &[u8]) -> Vec<u8> {
        let Ok(header) = parse_header_for(bytes, self.options.strict) else {
            return Vec::new();
        };
        let count = self.plane_bytes(bytes);
        let body = &bytes[header.data_offset..header.data_offset + count];
        let (width, height) = stand_in(&header, count);
        let mut file = Vec::new();
        write_header(width, height, &mut file);
        let size = width.div_ceil(8) as usize * height as usize;
        file.extend_from_slice(body);
        file.resize(file.len() - count + count.max(1).div_ceil(size) * size, 0);
        let options = DecodeOptions::new().with_format(self.options.format);
        let frames = decode_frames(&file, &options).expect("whole frames");
        let planes = frames.into_iter().map(|frame| frame.image.into_raw());
        let mut planes = planes.collect::<Vec<_>>().concat();
        planes.truncate(count);
        planes
    }

    /// The extension bytes among these that earlier calls did not take, and where in the buffer
    /// they stand.
    fn extension(&self, bytes: &[u8]) -> (usize, Vec<u8>) {
        if self.options.strict {
            return (0, Vec::new());
        }
        let earlier = fields(&self.taken).len();
        (earlier, bytes[fields(bytes)][earlier..].to_vec())
    }

    fn stage(&mut self, stage: &Stage, file: &[u8], mark: u8, buffer: &mut [u8]) -> Left {
        let mut left = Left {
            answers: Vec::new(),
            out: Vec::new(),
            buffer: Vec::new(),
            asked: Vec::new(),
        };
        for call in &stage.calls {
            let mut fed = self.call(call, file);
            let (at, extension) = fed.extension;
            buffer[at..at + extension.len()].copy_from_slice(&extension);
            fed.out.resize(call.out, mark);
            left.answers.push(fed.answer);
            left.out.extend(fed.out);
        }
        left.buffer = buffer.to_vec();
        left.asked = self.asked();
        left
    }

    /// 1 where it is closed; how many planes are whole behind the header, 16 at most; 1 where the
    /// fields are known, their kind, start, length and pairs.
    fn asked(&self) -> Vec<u64> {
        let closed = u64::from(!self.open);
        let header = parse_header_for(&self.taken, self.options.strict);
        let frames = header.map_or(0, |h| self.plane_bytes(&self.taken) as u128 / plane(&h));
        let fields = self
            .fields_known()
            .map_or([0; 5], |[k, s, l, p]| [1, k, s, l, p]);
        trimmed(&[&[closed, frames as u64], &fields[..]].concat())
    }

    /// The fields, zeros where there are none, once their last byte is taken.
    fn fields_known(&self) -> Option<[u64; 4]> {
        let strict = self.options.strict;
        let bytes = &self.taken;
        let mut at = 0;
        let read = if strict {
            read_mbi_u32_strict
        } else {
            read_mbi_u32
        };
        let (Ok(0), Some(&fix)) = (read(bytes, &mut at), bytes.get(at)) else {
            return None;
        };
        let start = at + 1;
        let mut end = start;
        match strict {
            true => (fix == 0).then_some([0; 4]),
            false => {
                let fields =
                    parse_ext_fields(FixHeaderField::from_byte(fix), bytes, &mut end).ok()?;
                Some(fields.map_or([0; 4], |f| fields_numbers(&f, bytes, start, end)))
            }
        }
    }

    pub fn call(&mut self, call: &Call, file: &[u8]) -> Fed {
        match call.feeds {
            true => self.feed(call.piece(file), call.out, call.buffer),
            false => Fed::refused(self.close()),
        }
    }
}

fn plane(header: &ParsedHeader) -> u128 {
    u128::from(header.width.div_ceil(8)) * u128::from(header.height)
}

/// The size; for a large plane that of its begun rows, of a row not whole the front.
fn stand_in(header: &ParsedHeader, bytes: usize) -> (u32, u32) {
    if plane(header) <= WHOLE {
        return (header.width, header.height);
    }
    let bytes = u32::try_from(bytes).expect("bytes");
    match header.width.div_ceil(8) {
        row if bytes < row => (8 * bytes.max(1), 1),
        row => (header.width, bytes.div_ceil(row)),
    }
}

/// Where the extension bytes stand, as far as they go: up to the end of the fields, of the bytes
/// if the fields are cut short, or up to the place of their refusal.
fn fields(bytes: &[u8]) -> Range<usize> {
    let mut start = 0;
    let typ = read_mbi_u32(bytes, &mut start);
    let (Ok(0), Some(&fix)) = (typ, bytes.get(start)) else {
        return 0..0;
    };
    start += 1;
    let mut end = start;
    match parse_ext_fields(FixHeaderField::from_byte(fix), bytes, &mut end) {
        Err(error) if [9, 13].contains(&number_of(&error)) => start..bytes.len(),
        _ => start..end,
    }
}

/// What a list answers and leaves. The input's file is that of the list.
pub fn list(input: &[u8]) -> Answer {
    let file = &input[FILE..FILE + short(input, SETTINGS + 3)];
    list_over(input, file)
}

/// What a list over a file answers and leaves: the opening's number, then the stages, then the
/// header as the session ends with it.
pub fn list_over(input: &[u8], file: &[u8]) -> Answer {
    let mark = input[SETTINGS];
    let (mut session, number) = Reading::open(reading(input), short(input, SETTINGS + 1));
    let stages = stages_at(&input[FILE + short(input, SETTINGS + 3)..]);
    let mut buffer = vec![mark; BUFFER];
    let left = stages
        .iter()
        .map(|stage| session.stage(stage, file, mark, &mut buffer));
    Answer {
        stages: left.collect(),
        then: Some(Box::new(session.header())),
        ..Answer::of(&[number])
    }
}
