//! Good files of many shapes.

use crate::random::Random;
use oracle::header::write_header;
use oracle::mbi::write_mbi_u32;

/// A file in its parts.
pub struct Card {
    pub width: u32,
    pub height: u32,
    /// The FixHeader byte and the fields.
    fix: Vec<u8>,
    pub planes: Vec<u8>,
}

const SIZES: [(u32, u32); 10] = [
    (1, 1),
    (7, 3),
    (8, 2),
    (9, 2),
    (16, 1),
    (17, 5),
    (64, 4),
    (127, 2),
    (128, 3),
    (200, 130),
];

impl Card {
    fn plane(&self) -> usize {
        self.width.div_ceil(8) as usize * self.height as usize
    }

    /// The same header over so many planes; some have their padding clear.
    pub fn with_frames(&self, frames: usize) -> Card {
        let mut planes = Random::new(self.width.into()).bytes(frames * self.plane());
        if frames % 2 == 0 {
            let row = self.width.div_ceil(8) as usize;
            let unused = row as u32 * 8 - self.width;
            for last in planes.chunks_mut(row).filter_map(<[u8]>::last_mut) {
                *last = *last >> unused << unused;
            }
        }
        let fix = self.fix.clone();
        Card {
            planes,
            fix,
            ..*self
        }
    }

    pub fn file(&self) -> Vec<u8> {
        let mut file = Vec::new();
        if self.fix == [0] {
            write_header(self.width, self.height, &mut file);
        } else {
            file.push(0);
            file.extend(&self.fix);
            write_mbi_u32(self.width, &mut file);
            write_mbi_u32(self.height, &mut file);
        }
        file.extend(&self.planes);
        file
    }
}

/// Every size with 1, 2 and 3 frames, without fields and with fields of each kind.
pub fn cards() -> Vec<Card> {
    let pairs = [0xE0, 0x92, b'k', b'1', b'2', 0x2F]
        .into_iter()
        .chain(*b"id")
        .chain(*b"abcdefghijklmno");
    let fixes = [
        vec![0x00],
        vec![0x1F],
        vec![0x80, 0x85, 0xFF, 0x03],
        vec![0xA0, 0xFF],
        vec![0xDF, 0x00],
        pairs.collect(),
    ];
    let mut cards = Vec::new();
    for (width, height) in SIZES {
        for fix in &fixes {
            let (fix, planes) = (fix.clone(), Vec::new());
            let card = Card {
                width,
                height,
                fix,
                planes,
            };
            // Large planes once only: they are cut at every byte.
            let most = if card.plane() > 100 { 1 } else { 3 };
            cards.extend((1..=most).map(|frames| card.with_frames(frames)));
        }
    }
    cards
}
