//! Random cards: made in pieces, read in pieces and shown.

use crate::encoder_cases::fields;
use crate::file_cases::mode;
use crate::list_cases::{MakingCase, ReadingCase};
use crate::random_cases::Random;
use crate::random_lists::room;
use crate::random_makings::{opening, work_enough};
use oracle::answer::Answer;
use oracle::encode_lists::{self, Opening, opening_at};
use oracle::lists::{short, stages_at, two};

/// The shortest extension buffer that serves.
const EXTENSION: usize = 4118;

/// A card: whole frames made under a random cut, and the file read under another.
pub fn card(random: &mut Random) -> Vec<u8> {
    let opening = card_opening(random);
    let long = opening.fields.len() > 100;
    let scan = opening.width as usize * opening.height as usize;
    let most = if long { 300 } else { 1500 };
    let frames = 1 + random.below((most / scan).clamp(1, 16) as u64) as usize;
    let samples = random.bytes(scan * frames);
    let lent = [work_enough(&opening), 14 + opening.fields.len()];
    let mut making = MakingCase::new(opening, random.next() as u8, lent, samples);
    while making.at < making.samples.len() {
        let work = work_enough(&making.opening);
        let len = 1 + random.below(100) as usize;
        making.feed(len, room(random), work);
    }
    making.close();
    let input = making.input();
    let reading = card_read(random, &input);
    let len = two(input.len());
    [&len[..], &input, &reading].concat()
}

/// An accepted opening of a card; now and then its fields are the longest octets that can be read.
fn card_opening(random: &mut Random) -> Opening {
    let mut opening = opening(random);
    opening.width = opening.width.clamp(1, 100);
    opening.height = opening.height.clamp(1, 8);
    opening.fields = fields()[random.below(6) as usize].clone();
    if random.once_in(50) {
        opening.fields = [&[0, 0, 0], &[random.next() as u8 & 0x7F; 4096][..]].concat();
    }
    if opening.kind == 2 {
        opening.number = random.one_of(&[2, 4, 8]);
    }
    opening
}

/// The made file, which stands in the making's output in stretches, read.
fn card_read(random: &mut Random, making: &[u8]) -> Vec<u8> {
    let made = encode_lists::list(making);
    let file = oracle::cards::output(&made);
    let mut settings = mode(random.below(2) as u8, 0);
    settings[18] = u8::from(file[1] == 0 && random.below(2) == 1);
    let mut case = ReadingCase::new(settings, random.next() as u8, EXTENSION, file);
    let mut stretches = vec![(0, made.accepted[0][1] as usize)];
    stretches.extend(written(making, &made));
    for (start, len) in stretches {
        read_stretch(random, &mut case, start, len);
    }
    case.close();
    case.input_without_file()
}

/// Where the bytes of each call stand in the output, and how many they are.
fn written(making: &[u8], made: &Answer) -> Vec<(usize, usize)> {
    let (_, rest) = opening_at(making);
    let stages = stages_at(&rest[short(making, 18)..]);
    let calls = stages.iter().flat_map(|stage| &stage.calls);
    let answers = made.stages.iter().flat_map(|left| &left.answers);
    let mut start = made.output.len();
    let mut stretches = Vec::new();
    for (call, answer) in calls.zip(answers) {
        stretches.push((start, answer[2] as usize));
        start += call.out;
    }
    stretches
}

/// Outputs are lent so that each is filled: they stand joined.
fn read_stretch(random: &mut Random, case: &mut ReadingCase, start: usize, len: usize) {
    let (mut at, end) = (start, start + len);
    while at < end {
        let piece = 1 + random.below((end - at) as u64) as usize;
        let mut trial = case.session.clone();
        let [_, _, most] = trial
            .feed(&case.file[at..at + piece], piece, EXTENSION)
            .answer;
        let room = match random.below(3) {
            0 => random.below(most + 1),
            _ => most,
        };
        at += case.feed_at(at, piece, room as usize, EXTENSION);
    }
}
