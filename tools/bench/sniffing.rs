//! Sniffing of files that end as exact, truncated or neither.

use crate::capi;
use crate::pictures::{Card, Picture};
use crate::rounds::{Times, medians};
use oracle::calls;
use std::hint::black_box;

/// What is sniffed.
#[derive(Clone, Copy)]
pub enum Sniffed {
    /// The file as it is.
    Whole,
    /// Half of it.
    Cut,
    /// The file with 100,000 bytes behind it.
    Surplus,
    /// The file with one bit of padding set in its first row, or in its last.
    DirtyFirst,
    DirtyLast,
}

impl Sniffed {
    pub fn name(self) -> &'static str {
        match self {
            Sniffed::Whole => "whole",
            Sniffed::Cut => "cut",
            Sniffed::Surplus => "surplus",
            Sniffed::DirtyFirst => "dirty first",
            Sniffed::DirtyLast => "dirty last",
        }
    }

    fn file(self, card: Card) -> Vec<u8> {
        let mut file = card.file(Picture::Random);
        match self {
            Sniffed::Whole => {}
            Sniffed::Cut => file.truncate(file.len() / 2),
            Sniffed::Surplus => file.extend([0; 100_000]),
            Sniffed::DirtyFirst => file[card.header().len() + card.row() - 1] |= 1,
            Sniffed::DirtyLast => *file.last_mut().expect("a row") |= 1,
        }
        file
    }

    /// 0 stands for neither, 1 for exact, 2 for truncated.
    fn answer(self, card: Card) -> u8 {
        match self {
            Sniffed::Whole => u8::from(card.frames <= 16),
            Sniffed::Cut => 2,
            Sniffed::Surplus | Sniffed::DirtyFirst | Sniffed::DirtyLast => 0,
        }
    }
}

pub fn sniff(card: Card, sniffed: Sniffed, rounds: usize) -> Times {
    let (file, answer) = (sniffed.file(card), sniffed.answer(card));
    let times = medians(
        rounds,
        [
            &mut |_| assert_eq!(calls::sniff(black_box(&file)), answer),
            &mut |_| assert_eq!(capi::sniff(black_box(&file)), answer),
        ],
    );
    Times::of_two(times)
}
