//! Cases for whole writing and making.

use crate::cases::{Group, Operation, Sweep};
use crate::plane_cases::noise;
use crate::writer_cases::pairs;

pub fn groups() -> Vec<Group> {
    let group = |name, operation, sweeps| Group {
        name,
        operation,
        sweeps,
    };
    let images = Operation::EncodeImages;
    let gray = Operation::EncodeGray;
    vec![
        group("encode_images planes", images, planes()),
        group("encode_images order", images, image_orders()),
        group("encode_images fields", images, image_fields()),
        group("encode_gray8 scans", gray, scans()),
        group("encode_gray8 order", gray, gray_orders()),
        group("encode_gray8 fields", gray, gray_fields()),
    ]
}

/// What an input holds before the planes or gray.
#[derive(Clone, Copy)]
pub struct Front {
    pub strict: u8,
    /// The format, or the kind of rule.
    pub kind: u8,
    pub width: u32,
    pub height: u32,
    pub count: u32,
    /// The stride, or the rule's number and the length of the work buffer.
    pub numbers: [u8; 8],
}

impl Front {
    pub fn input(&self, body: &[u8], fields: &[u8]) -> Vec<u8> {
        let sizes = [self.width, self.height, self.count].map(u32::to_be_bytes);
        let len = u16::try_from(body.len()).expect("a length of 16 bits");
        let front = [
            &[self.strict, self.kind],
            &sizes.concat()[..],
            &self.numbers,
        ];
        [&front.concat()[..], &len.to_be_bytes(), body, fields].concat()
    }
}

/// No fields.
pub const ABSENT: &[u8] = &[4, 0, 0];

/// None, good fields of each kind, two that are refused only if strict, and each refusal.
pub fn fields() -> Vec<Vec<u8>> {
    let one = |name: &[u8], value: &[u8]| pairs(&[(b"key", b"12"), (name, value)]);
    vec![
        ABSENT.to_vec(),
        vec![0, 0, 0, 0x01, 0x7F],
        vec![1, 0, 0, 0x91, 0x02],
        vec![2, 0, 0, 0x12],
        one(b"k", b"v"),
        one(b"keyword", b"15letters123456"),
        one(b"\x80", b"v"),
        one(b"k", b"-"),
        vec![3, 0, 2, 1, 1, b'k'],
        vec![1, 0, 0],
        vec![3, 0, 0],
        vec![0, 0, 0, 0x01, 0x80],
        one(b"", b"v"),
        one(b"\x80", b""),
    ]
}

/// Lenient and strict, and both formats.
fn in_modes(base: Vec<u8>) -> Sweep {
    Sweep::over(base, 0, 2, vec![0, 1])
}

fn image(width: u32, height: u32, count: u32, stride: u64) -> Front {
    Front {
        strict: 0,
        kind: 0,
        width,
        height,
        count,
        numbers: stride.to_be_bytes(),
    }
}

/// Planes with strides around the row's bytes and larger, whole, with more bytes and one short.
fn planes() -> Vec<Sweep> {
    let mut sweeps = Vec::new();
    for width in [1, 7, 8, 9, 16, 17] {
        for height in 1..=3 {
            let row = u64::from(width).div_ceil(8);
            for stride in [row, row + 1, row + 3] {
                let need = stride * u64::from(height - 1) + row;
                for count in [1, 2, if height == 1 { 16 } else { 3 }] {
                    let total = need as usize * count as usize;
                    for len in [total, total + 2, total - 1] {
                        let front = image(width, height, count, stride);
                        let seed = sweeps.len();
                        sweeps.push(in_modes(front.input(&noise(seed, len), ABSENT)));
                    }
                }
            }
        }
    }
    sweeps
}

/// Sizes and a count that the sweep adds up to 17 to: none, some and the largest.
const SIZES: [(u32, u32, u32); 8] = [
    (9, 1, 0),
    (9, 2, 0),
    (0, 2, 0),
    (9, 0, 0),
    (0, 0, 0),
    (u32::MAX, 2, 0),
    (9, u32::MAX, 0),
    (9, 2, 0xFFFF_FF00),
];

/// No frame, some, the most and one more.
fn in_counts(base: Vec<u8>) -> Sweep {
    Sweep::over(base, 13, 1, vec![0, 1, 2, 16, 17])
}

/// One bad argument beside the others, good and bad: no width or height, no frame or 17, a stride
/// below the row or with a plane past 64 bits or a total past 64 bits, short planes, bad fields.
fn image_orders() -> Vec<Sweep> {
    let strides = [0, 1, 2, 3, 1 << 60, u64::MAX / 2, u64::MAX - 1, u64::MAX];
    let mut sweeps = Vec::new();
    for (width, height, count) in SIZES {
        for stride in strides {
            for (bytes, fields, mode) in [(0, 0, 0), (3, 8, 1), (80, 0, 1), (80, 6, 1), (80, 8, 0)]
            {
                let front = Front {
                    strict: mode,
                    kind: mode,
                    ..image(width, height, count, stride)
                };
                let fields = &self::fields()[fields];
                sweeps.push(in_counts(front.input(&vec![0xA5; bytes], fields)));
            }
        }
    }
    sweeps
}

/// Fields of each kind, before one plane and several; octets past the ceiling.
fn image_fields() -> Vec<Sweep> {
    let overlong = |octets: usize| [vec![0, 0, 0], vec![0x05; octets]].concat();
    let all = fields().into_iter().chain([4096, 4097].map(overlong));
    let mut sweeps = Vec::new();
    for fields in all {
        for (count, len) in [(1, 4), (3, 12), (2, 7), (0, 4)] {
            let front = image(9, 2, count, 2);
            sweeps.push(in_modes(front.input(&noise(len, len), &fields)));
        }
    }
    for (width, height) in [(128, 1), (1, 128), (16384, 1), (300, 20)] {
        let stride = u64::from(u32::div_ceil(width, 8));
        let len = stride as usize * height as usize;
        let front = image(width, height, 1, stride);
        sweeps.push(in_modes(
            front.input(&[0x5A, 0xC3, 0x0F].repeat(len / 3 + 1), ABSENT),
        ));
    }
    sweeps
}

/// The kind of rule, its number and the length of the work buffer.
type Rule = (u8, u8, u8);

const DITHER: Rule = (1, 0, 64);

fn scan(width: u32, height: u32, count: u32, rule: Rule) -> Front {
    Front {
        strict: 0,
        kind: rule.0,
        width,
        height,
        count,
        numbers: [rule.1, rule.2, 0, 0, 0, 0, 0, 0],
    }
}

/// Scans by each rule, whole, with surplus and one sample short; frames that are alike and that
/// differ; those in which a dot receives 128 or -128.
fn scans() -> Vec<Sweep> {
    let rules = [
        (0, 0, 0),
        (0, 128, 64),
        DITHER,
        (2, 2, 0),
        (2, 4, 0),
        (2, 8, 0),
    ];
    let mut sweeps = Vec::new();
    for rule in rules {
        for width in [1, 3, 8, 9, 17] {
            for height in 1..=2 {
                for count in [1, 2, if height == 1 { 16 } else { 3 }] {
                    let total = (width * height * count) as usize;
                    for len in [total, total + 3, total - 1] {
                        let front = scan(width, height, count, rule);
                        sweeps.push(Sweep::one(front.input(&noise(len, len), ABSENT)));
                    }
                }
            }
        }
        let rows = [
            0x7F, 0x47, 0x47, 0x3F, 0xFF, 0x80, 0x80, 0xB8, 0xB8, 0xC0, 0x00, 0x80,
        ];
        let front = scan(3, 2, 4, rule);
        sweeps.push(Sweep::one(front.input(&[rows, rows].concat(), ABSENT)));
    }
    sweeps
}

/// One bad argument beside the others, good and bad: no width or height, no frame or 17, an
/// unknown side, a short work buffer, too little gray, bad fields.
fn gray_orders() -> Vec<Sweep> {
    let rules = [
        (0, 1, 0),
        (1, 0, 17),
        (1, 0, 18),
        (2, 4, 0),
        (2, 1, 0),
        (2, 16, 0),
    ];
    let mut sweeps = Vec::new();
    for (width, height, count) in SIZES {
        for rule in rules {
            for (bytes, fields) in [(0, 0), (17, 8), (288, 0), (288, 8), (36, 4)] {
                let front = scan(width, height, count, rule);
                let fields = &self::fields()[fields];
                sweeps.push(in_counts(front.input(&vec![0xA5; bytes], fields)));
            }
        }
    }
    sweeps
}

/// Fields of each kind before scans of each rule, lenient and strict.
fn gray_fields() -> Vec<Sweep> {
    let mut sweeps = Vec::new();
    for fields in fields() {
        for rule in [(0, 128, 0), DITHER, (2, 8, 0)] {
            for count in [1, 3] {
                let base = scan(9, 2, count, rule).input(&noise(54, 54), &fields);
                sweeps.push(Sweep::over(base, 0, 1, vec![0, 1]));
            }
        }
    }
    sweeps
}
