//! Random cases for whole writing and making: mostly good arguments, now and then a bad one.

use crate::cases::{Group, Operation, Sweep};
use crate::encoder_cases::{Front, fields};

/// Two groups of so many cases each.
pub fn groups(seed: u64, cases: usize) -> Vec<Group> {
    let mut random = Random::new(seed);
    let images = (0..cases).map(|_| image(&mut random)).collect();
    let scans = (0..cases).map(|_| scan(&mut random)).collect();
    let group = |name, operation, inputs: Vec<Vec<u8>>| Group {
        name,
        operation,
        sweeps: inputs.into_iter().map(Sweep::one).collect(),
    };
    vec![
        group("encode_images random", Operation::EncodeImages, images),
        group("encode_gray8 random", Operation::EncodeGray, scans),
    ]
}

/// Marsaglia's xorshift, its state never 0.
pub struct Random(u64);

impl Random {
    pub fn new(seed: u64) -> Random {
        Random(seed.wrapping_mul(2).wrapping_add(1))
    }

    pub fn next(&mut self) -> u64 {
        self.0 ^= self.0 << 13;
        self.0 ^= self.0 >> 7;
        self.0 ^= self.0 << 17;
        self.0 >> 16
    }

    /// A number below `n`.
    pub fn below(&mut self, n: u64) -> u64 {
        self.next() % n
    }

    /// One time of `n`.
    pub fn once_in(&mut self, n: u64) -> bool {
        self.below(n) == 0
    }

    pub fn one_of<T: Copy>(&mut self, choice: &[T]) -> T {
        choice[self.below(choice.len() as u64) as usize]
    }

    /// Noise, or a flat or two-valued stretch.
    pub fn bytes(&mut self, len: usize) -> Vec<u8> {
        let few = [self.next() as u8, self.next() as u8];
        match self.below(4) {
            0 => (0..len).map(|_| self.one_of(&few)).collect(),
            1 => vec![few[0]; len],
            _ => (0..len).map(|_| self.next() as u8).collect(),
        }
    }

    /// Mostly none or good ones.
    pub fn fields(&mut self) -> Vec<u8> {
        let choice = fields();
        let kind = match self.below(8) {
            0 => self.below(choice.len() as u64),
            1 | 2 => self.below(8),
            _ => 0,
        };
        choice[kind as usize].clone()
    }

    /// A side up to `most`, now and then none or the largest.
    fn side(&mut self, most: u64) -> u32 {
        match self.below(64) {
            0 => 0,
            1 => u32::MAX,
            _ => 1 + self.below(most) as u32,
        }
    }

    fn count(&mut self) -> u32 {
        match self.below(32) {
            0 => 0,
            1 => 17 + self.below(3) as u32,
            2 => 16,
            _ => 1 + self.below(4) as u32,
        }
    }

    /// So many bytes, at most 4,000, now and then fewer or more.
    fn body(&mut self, need: u128) -> Vec<u8> {
        let len = need.min(4000) as usize;
        let len = match self.below(16) {
            0 => len.saturating_sub(1 + self.below(3) as usize),
            1 | 2 => len + self.below(5) as usize,
            _ => len,
        };
        self.bytes(len)
    }
}

fn image(random: &mut Random) -> Vec<u8> {
    let (width, height, count) = (random.side(140), random.side(9), random.count());
    let row = u64::from(width.div_ceil(8));
    let stride = match random.below(32) {
        0 => row.saturating_sub(1),
        1 => random.one_of(&[u64::MAX, 1 << 63, u64::MAX / 3]),
        2..=9 => row + random.below(5),
        _ => row,
    };
    let plane = u128::from(stride) * u128::from(height.max(1) - 1) + u128::from(row);
    let body = random.body(plane.saturating_mul(count.into()));
    let front = Front {
        strict: random.below(2) as u8,
        kind: random.below(2) as u8,
        width,
        height,
        count,
        numbers: stride.to_be_bytes(),
    };
    front.input(&body, &random.fields())
}

fn scan(random: &mut Random) -> Vec<u8> {
    let (width, height) = match random.once_in(4) {
        true => (random.side(125), random.side(3)),
        false => (random.side(32), random.side(9)),
    };
    let count = random.count();
    let (kind, number) = match random.below(8) {
        0..=1 => (0, random.next() as u8),
        2 => (2, random.next() as u8 % 9),
        3..=4 => (2, random.one_of(&[2, 4, 8])),
        _ => (1, 0),
    };
    let need = width.saturating_mul(2).min(255) as u8;
    let work = match random.once_in(16) {
        true => random.next() as u8,
        false => need,
    };
    let samples = u128::from(width) * u128::from(height);
    let body = random.body(samples.saturating_mul(count.into()));
    let front = Front {
        strict: random.below(2) as u8,
        kind,
        width,
        height,
        count,
        numbers: [number, work, 0, 0, 0, 0, 0, 0],
    };
    front.input(&body, &random.fields())
}
