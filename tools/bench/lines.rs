//! The lines of the table: calls, sizes and pictures, each with its goal.

use crate::fields;
use crate::kernels::Making;
use crate::pictures::{Card, PICTURES, Picture};
use crate::rounds::Times;
use crate::sizes::{LONG, all_frames, files, high, low, sizes};
use crate::sniffing::{Sniffed, sniff};
use crate::{making, reading, sessions};

/// What a line has to reach.
#[derive(Clone, Copy)]
pub struct Goal {
    /// The least ratio of the Rust's time to ours.
    pub least: Option<f64>,
    /// The most that a session may take of our whole call's time.
    pub most: Option<f64>,
}

/// What is timed beside the Rust's call and ours.
pub enum Beside {
    Nothing,
    /// memcpy of the file.
    Copy,
    /// Our whole call, beside a session of so many calls.
    Whole(usize),
}

pub struct Line {
    pub call: &'static str,
    pub card: Card,
    /// The picture, what is sniffed, or a session's pieces.
    pub of: String,
    pub goal: Goal,
    pub beside: Beside,
    pub time: Box<dyn Fn(usize) -> Times>,
}

impl Line {
    fn new(
        call: &'static str,
        card: Card,
        of: &str,
        least: f64,
        time: impl Fn(usize) -> Times + 'static,
    ) -> Line {
        let goal = Goal {
            least: Some(least),
            most: None,
        };
        let (of, beside, time) = (of.to_string(), Beside::Nothing, Box::new(time));
        Line {
            call,
            card,
            of,
            goal,
            beside,
            time,
        }
    }
}

pub fn all() -> Vec<Line> {
    let parts = [
        read(),
        sniffs(),
        infos(),
        thresholds(),
        dithers(),
        makes(),
        writes(),
        read_sessions(),
        field_sessions(),
        make_sessions(),
    ];
    parts.into_iter().flatten().collect()
}

fn read() -> Vec<Line> {
    let formats = [("read native", 0), ("read inverted", 1)];
    let cards = || sizes().chain(high()).chain(all_frames());
    let lines = formats.into_iter().flat_map(|(call, format)| {
        cards().map(move |card| {
            let time = move |rounds| reading::read(&card.file(Picture::Random), format, rounds);
            Line {
                beside: Beside::Copy,
                ..Line::new(call, card, "random", 1.0, time)
            }
        })
    });
    lines.collect()
}

fn sniffs() -> Vec<Line> {
    let whole = sizes().chain(high()).chain(all_frames());
    let mut cases: Vec<(Card, Sniffed)> = whole.map(|card| (card, Sniffed::Whole)).collect();
    cases.extend([1, 9].map(|width| (Card::new(width, width), Sniffed::Surplus)));
    cases.push((Card::new(128, 64), Sniffed::Cut));
    for card in [
        Card::new(101, 80),
        Card::new(9, 4096),
        Card::new(1021, 1024),
    ] {
        cases.extend(
            [Sniffed::Cut, Sniffed::DirtyFirst, Sniffed::DirtyLast].map(|what| (card, what)),
        );
    }
    let lines = cases.into_iter().map(|(card, what)| {
        Line::new("sniff", card, what.name(), 1.0, move |rounds| {
            sniff(card, what, rounds)
        })
    });
    lines.collect()
}

fn infos() -> Vec<Line> {
    let lines = sizes().chain(all_frames()).map(|card| {
        let time = move |rounds| reading::info(&card.file(Picture::Random), rounds);
        Line::new("info", card, "random", 1.0, time)
    });
    lines.collect()
}

fn threshold_goal(card: Card) -> f64 {
    if card.width < 24 { 1.1 } else { 1.5 }
}

fn thresholds() -> Vec<Line> {
    let lines = sizes().chain(low()).chain(high()).map(|card| {
        let time = move |rounds| making::quantize(card, Picture::Random, false, rounds);
        Line::new("threshold", card, "random", threshold_goal(card), time)
    });
    lines.collect()
}

fn dither_goal(card: Card, picture: Picture) -> f64 {
    match (card.width, card.height, picture) {
        (1024, 1024, Picture::Gradient) => 4.0,
        (..16, ..16, _) => 1.7,
        _ => 2.0,
    }
}

fn dithers() -> Vec<Line> {
    let cards = || sizes().chain(low());
    let lines = PICTURES.into_iter().flat_map(|picture| {
        cards().map(move |card| {
            let time = move |rounds| making::quantize(card, picture, true, rounds);
            Line::new(
                "dither",
                card,
                picture.name(),
                dither_goal(card, picture),
                time,
            )
        })
    });
    lines.collect()
}

fn makes() -> Vec<Line> {
    let lines = files().flat_map(|card| {
        let rules = [
            ("make threshold", false, threshold_goal(card)),
            ("make dithered", true, dither_goal(card, Picture::Gradient)),
        ];
        rules.map(|(call, dithered, goal)| {
            let time = move |rounds| making::make(card, Picture::Gradient, dithered, rounds);
            Line::new(call, card, "gradient", goal, time)
        })
    });
    lines.collect()
}

fn writes() -> Vec<Line> {
    let lines = files().flat_map(|card| {
        [("write native", false), ("write inverted", true)].map(|(call, inverted)| {
            let time = move |rounds| making::write(card, inverted, rounds);
            Line::new(call, card, "random", 1.0, time)
        })
    });
    lines.collect()
}

const PIECES: [usize; 3] = [256, 4096, 65536];

const NONE: Goal = Goal {
    least: None,
    most: None,
};

/// A goal beside our whole call, which reads by the same code.
fn at_most(part: f64) -> Goal {
    Goal {
        most: Some(part),
        ..NONE
    }
}

/// A goal beside the Rust's whole call: ours writes planes at once, a session by the engine.
fn at_least(ratio: f64) -> Goal {
    Goal {
        least: Some(ratio),
        ..NONE
    }
}

/// A session over so many bytes or samples, in pieces; those of 4,096 or more have a goal. The Rust
/// has no sessions: its whole call stands beside them.
fn pieces<T: Fn(usize) -> Times + 'static>(
    (call, card, len): (&'static str, Card, usize),
    pieces: &[usize],
    goal: Goal,
    time: impl Fn(usize) -> T,
) -> Vec<Line> {
    let lines = pieces.iter().map(|&piece| {
        let goal = if piece < 4096 { NONE } else { goal };
        let beside = Beside::Whole(len.div_ceil(piece));
        let line = Line::new(call, card, &format!("by {piece}"), 1.0, time(piece));
        Line {
            goal,
            beside,
            ..line
        }
    });
    lines.collect()
}

/// The small card is read in pieces of one byte, which shows what a call costs.
fn read_sessions() -> Vec<Line> {
    let small = (Card::new(128, 64), &[1][..]);
    let mut lines = Vec::new();
    for (card, sizes) in [(LONG[0], &PIECES[..]), (LONG[1], &PIECES), small] {
        for (call, format) in [("session native", 0), ("session inverted", 1)] {
            let len = card.header().len() + card.plane();
            lines.extend(pieces((call, card, len), sizes, at_most(1.1), |piece| {
                move |rounds| sessions::read(&card.file(Picture::Gradient), format, piece, rounds)
            }));
        }
    }
    lines
}

fn field_sessions() -> Vec<Line> {
    let files = [
        ("session octets", fields::octets()),
        ("session pairs", fields::pairs()),
        ("session wide pairs", fields::wide_pairs()),
    ];
    let lines = files.into_iter().flat_map(|(call, file)| {
        let subject = (call, Card::new(8, 1), file.len());
        pieces(subject, &PIECES, at_most(3.0), |piece| {
            let file = file.clone();
            move |rounds| sessions::read(&file, 0, piece, rounds)
        })
    });
    lines.collect()
}

fn make_sessions() -> Vec<Line> {
    let mut lines = Vec::new();
    for card in LONG {
        let rules = [
            ("session threshold", false, threshold_goal(card)),
            ("session dithered", true, 2.0),
        ];
        for (call, dithered, ratio) in rules {
            let samples = (card.width * card.height) as usize;
            let making = Making { card, dithered };
            lines.extend(pieces(
                (call, card, samples),
                &PIECES,
                at_least(ratio),
                |piece| move |rounds| sessions::make(making, piece, rounds),
            ));
        }
    }
    lines
}
