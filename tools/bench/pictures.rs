//! The cards that are timed, their pictures as gray samples, and their files.

use oracle::calls;
use oracle::header::write_header;
use oracle::options::Quantize;

/// Random samples, a gradient, black lines on white, and these with a gradient in a quarter of the
/// columns of a sixth of the rows.
#[derive(Clone, Copy)]
pub enum Picture {
    Random,
    Gradient,
    Lines,
    Mixed,
}

pub const PICTURES: [Picture; 4] = [
    Picture::Random,
    Picture::Gradient,
    Picture::Lines,
    Picture::Mixed,
];

impl Picture {
    pub fn name(self) -> &'static str {
        match self {
            Picture::Random => "random",
            Picture::Gradient => "gradient",
            Picture::Lines => "line art",
            Picture::Mixed => "mixed",
        }
    }
}

/// So many frames of one size.
#[derive(Clone, Copy)]
pub struct Card {
    pub width: u32,
    pub height: u32,
    pub frames: u32,
}

impl Card {
    pub const fn new(width: u32, height: u32) -> Card {
        Card {
            width,
            height,
            frames: 1,
        }
    }

    pub const fn of(self, frames: u32) -> Card {
        Card { frames, ..self }
    }

    pub fn row(&self) -> usize {
        self.width.div_ceil(8) as usize
    }

    pub fn plane(&self) -> usize {
        self.row() * self.height as usize
    }

    /// The samples of all frames, each the picture.
    pub fn gray(&self, picture: Picture) -> Vec<u8> {
        let mut state = 0x9E37_79B9_7F4A_7C15_u64;
        let rows = (0..self.frames).flat_map(|_| 0..self.height);
        let dots = rows.flat_map(|y| (0..self.width).map(move |x| (x, y)));
        dots.map(|(x, y)| match picture {
            Picture::Random => random(&mut state),
            Picture::Gradient => self.shade(x, y),
            Picture::Mixed if self.is_gray(x, y) => self.shade(x, y),
            Picture::Lines | Picture::Mixed => 255 * u8::from(!is_line(x, y)),
        })
        .collect()
    }

    /// The planes of all frames, end to end, by threshold 128.
    pub fn planes(&self, picture: Picture) -> Vec<u8> {
        let (rows, rule) = (self.height * self.frames, Quantize::Threshold(128));
        let image = calls::from_gray8(self.width, rows, &self.gray(picture), rule);
        image.expect("whole scans").into_raw()
    }

    /// The file of these planes.
    pub fn file(&self, picture: Picture) -> Vec<u8> {
        let mut file = self.header();
        file.extend(self.planes(picture));
        file
    }

    /// A header without fields.
    pub fn header(&self) -> Vec<u8> {
        let mut header = Vec::new();
        write_header(self.width, self.height, &mut header);
        header
    }

    fn shade(&self, x: u32, y: u32) -> u8 {
        ((x * 255 / self.width + y * 255 / self.height) / 2) as u8
    }

    /// Where a mixed picture has its gradient: near the middle, and in one dot at least.
    fn is_gray(&self, x: u32, y: u32) -> bool {
        let (left, top) = (self.width * 3 / 8, self.height * 5 / 12);
        (left..left + self.width.div_ceil(4)).contains(&x)
            && (top..top + self.height.div_ceil(6)).contains(&y)
    }
}

impl std::fmt::Display for Card {
    fn fmt(&self, f: &mut std::fmt::Formatter) -> std::fmt::Result {
        let size = match self.frames {
            1 => format!("{}x{}", self.width, self.height),
            frames => format!("{}x{}x{frames}", self.width, self.height),
        };
        f.pad(&size)
    }
}

/// A grid and two bundles of diagonals.
fn is_line(x: u32, y: u32) -> bool {
    x % 32 == 0 || y % 32 == 0 || (x + y) % 47 < 2 || (x + 3 * y) % 101 < 3
}

/// A byte of xorshift.
fn random(state: &mut u64) -> u8 {
    *state ^= *state << 13;
    *state ^= *state >> 7;
    *state ^= *state << 17;
    (*state >> 32) as u8
}
