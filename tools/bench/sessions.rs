//! Sessions in pieces, with our whole call beside them. A session's calls are a list of numbers,
//! built once and run by crates/bench. The pieces of a session's output start anywhere in a word, so
//! the buffers of our whole call do, too.

use crate::capi::{self, Image};
use crate::kernels::{self, Making};
use crate::lent::{Copies, Lent};
use crate::making::rust_file;
use crate::pictures::Picture;
use crate::reading::{asked, options, planes};
use crate::rounds::{Times, medians};
use oracle::calls;
use std::hint::black_box;

/// A list of feeding calls, five numbers each, with three numbers for each answer.
struct List {
    calls: Vec<usize>,
    answers: Vec<usize>,
}

impl List {
    /// Pieces of `size` of so many samples; each is lent so much work and, for its output, as many
    /// bytes as it has samples.
    fn new(samples: usize, size: usize, work: usize) -> List {
        let starts = (0..samples).step_by(size);
        let pieces = starts.map(|start| (start, size.min(samples - start)));
        let calls: Vec<usize> = pieces
            .flat_map(|(start, len)| [1, start, len, len, work])
            .collect();
        let answers = vec![0; calls.len() / 5 * 3];
        List { calls, answers }
    }

    /// Lends each call as many bytes as it wrote, so that outputs stand without gaps.
    fn fit(&mut self) {
        let calls = self.calls.chunks_exact_mut(5);
        for (call, answer) in calls.zip(self.answers.chunks_exact(3)) {
            call[3] = answer[2];
        }
    }

    /// How many bytes were written, where every call was made, took its piece and filled its room.
    fn written(&self, made: usize) -> usize {
        let calls = self.calls.chunks_exact(5);
        assert_eq!(made, calls.len(), "calls made");
        for (call, answer) in calls.zip(self.answers.chunks_exact(3)) {
            assert_eq!(answer, [0, call[2], call[3]], "refusal, taken, written");
        }
        self.answers.iter().skip(2).step_by(3).sum()
    }
}

/// A file read whole by the Rust, by a session, and whole by ours.
pub fn read(file: &[u8], format: u32, piece: usize, rounds: usize) -> Times {
    let (asked, options) = (asked(format), options(format));
    let mut image = Image::default();
    let mut whole = Lent::new(file.len(), 17);
    let mut out = Lent::new(file.len(), 17);
    let mut ext = vec![0; 4118];
    let mut list = List::new(file.len(), piece, ext.len());
    let files = Copies::new(file);
    let mut session = |List { calls, answers }: &mut List, round: usize, out: &mut [u8]| {
        kernels::read_list(format == 1, calls, files.of(round), out, &mut ext, answers)
    };
    session(&mut list, 0, out.next());
    list.fit();
    let mut made = 0;
    let times = medians(
        rounds,
        [
            &mut |round| drop(black_box(calls::decode_frames(files.of(round), &options))),
            &mut |round| made = session(&mut list, round, out.next()),
            &mut |round| {
                let refusal = capi::read(files.of(round), &asked, whole.next(), &mut image);
                assert_eq!(refusal, 0)
            },
        ],
    );
    let read = planes(file, format);
    assert!(read == whole.last()[..image.written], "reading differs");
    assert!(
        read == out.last()[..list.written(made)],
        "reading in pieces differs"
    );
    Times::of_three(times)
}

/// A scan made to a file by the Rust, to its plane by a session, and to a file by ours.
pub fn make(making: Making, piece: usize, rounds: usize) -> Times {
    let Making { card, dithered } = making;
    let gray = card.gray(Picture::Gradient);
    let header = card.header().len();
    let mut whole = vec![0; header + card.plane()];
    let mut out = vec![0; gray.len()];
    let mut work = vec![0; 2 * card.width as usize];
    let mut other = work.clone();
    let mut list = List::new(gray.len(), piece, work.len());
    let mut session = |List { calls, answers }: &mut List, out: &mut [u8]| {
        kernels::make_list(making, calls, black_box(&gray), &mut other, out, answers)
    };
    session(&mut list, &mut out);
    list.fit();
    let mut made = 0;
    let times = medians(
        rounds,
        [
            &mut |_| drop(black_box(rust_file(card, black_box(&gray), dithered))),
            &mut |_| made = session(&mut list, &mut out[..card.plane()]),
            &mut |_| {
                let refusal = kernels::make(making, black_box(&gray), &mut work, &mut whole);
                assert_eq!(refusal, 0)
            },
        ],
    );
    assert!(rust_file(card, &gray, dithered) == whole, "files differ");
    assert!(
        whole[header..] == out[..list.written(made)],
        "planes made in pieces differ"
    );
    Times::of_three(times)
}
