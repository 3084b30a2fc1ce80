//! Threshold and dithering, sessions, whole making and writing of this codec over slices, by the
//! functions of crates/bench.

use crate::pictures::Card;

/// The number of a refusal, 0 where there is none.
pub fn threshold(width: u32, height: u32, gray: &[u8], threshold: u8, out: &mut [u8]) -> u8 {
    let (from, to) = (gray.as_ptr(), out.as_mut_ptr());
    // SAFETY: the pointers and lengths are those of slices, which do not overlap.
    unsafe { bench_threshold(width, height, from, gray.len(), threshold, to, out.len()) }
}

/// `work` has at least 2 x width numbers.
pub fn dither(width: u32, height: u32, gray: &[u8], work: &mut [i16], out: &mut [u8]) -> u8 {
    let (from, to, kept) = (gray.as_ptr(), out.as_mut_ptr(), work.as_mut_ptr());
    // SAFETY: the pointers and lengths are those of slices, which do not overlap.
    unsafe {
        bench_dither(
            width,
            height,
            from,
            gray.len(),
            kept,
            work.len(),
            to,
            out.len(),
        )
    }
}

/// Reads a file by the calls of a list on a session: how many were made.
pub fn read_list(
    inverted: bool,
    calls: &[usize],
    file: &[u8],
    out: &mut [u8],
    ext: &mut [u8],
    answers: &mut [usize],
) -> usize {
    let (to, fields, told) = (out.as_mut_ptr(), ext.as_mut_ptr(), answers.as_mut_ptr());
    // SAFETY: the pointers and lengths are those of slices, which do not overlap.
    unsafe {
        bench_read_list(
            inverted,
            calls.as_ptr(),
            calls.len(),
            file.as_ptr(),
            file.len(),
            to,
            out.len(),
            fields,
            ext.len(),
            told,
            answers.len(),
        )
    }
}

/// What is made, dithered or by threshold 128.
#[derive(Clone, Copy)]
pub struct Making {
    pub card: Card,
    pub dithered: bool,
}

/// Makes the planes of a file by the calls of a list on a session: how many were made.
pub fn make_list(
    making: Making,
    calls: &[usize],
    gray: &[u8],
    work: &mut [i16],
    out: &mut [u8],
    answers: &mut [usize],
) -> usize {
    let (to, kept, told) = (out.as_mut_ptr(), work.as_mut_ptr(), answers.as_mut_ptr());
    // SAFETY: the pointers and lengths are those of slices, which do not overlap.
    unsafe {
        bench_make_list(
            making.card.width,
            making.card.height,
            making.dithered,
            calls.as_ptr(),
            calls.len(),
            gray.as_ptr(),
            gray.len(),
            kept,
            work.len(),
            to,
            out.len(),
            told,
            answers.len(),
        )
    }
}

/// Makes the same file whole: the number of a refusal, 0 where there is none.
pub fn make(making: Making, gray: &[u8], work: &mut [i16], out: &mut [u8]) -> u8 {
    let (from, to, kept) = (gray.as_ptr(), out.as_mut_ptr(), work.as_mut_ptr());
    // SAFETY: the pointers and lengths are those of slices, which do not overlap.
    unsafe {
        bench_make(
            making.card.width,
            making.card.height,
            making.card.frames as usize,
            from,
            gray.len(),
            making.dithered,
            kept,
            work.len(),
            to,
            out.len(),
        )
    }
}

/// Writes a whole file of planes: the number of a refusal, 0 where there is none.
pub fn write(card: Card, planes: &[u8], inverted: bool, out: &mut [u8]) -> u8 {
    let (from, to) = (planes.as_ptr(), out.as_mut_ptr());
    let (count, stride) = (card.frames as usize, card.row());
    // SAFETY: the pointers and lengths are those of slices, which do not overlap.
    unsafe {
        bench_write(
            card.width,
            card.height,
            count,
            from,
            planes.len(),
            stride,
            inverted,
            to,
            out.len(),
        )
    }
}

unsafe extern "C" {
    fn bench_read_list(
        inverted: bool,
        calls: *const usize,
        calls_len: usize,
        file: *const u8,
        file_len: usize,
        out: *mut u8,
        out_len: usize,
        ext: *mut u8,
        ext_len: usize,
        answers: *mut usize,
        answers_len: usize,
    ) -> usize;
    fn bench_make_list(
        width: u32,
        height: u32,
        dithered: bool,
        calls: *const usize,
        calls_len: usize,
        gray: *const u8,
        gray_len: usize,
        work: *mut i16,
        work_len: usize,
        out: *mut u8,
        out_len: usize,
        answers: *mut usize,
        answers_len: usize,
    ) -> usize;
    fn bench_write(
        width: u32,
        height: u32,
        count: usize,
        planes: *const u8,
        planes_len: usize,
        stride: usize,
        inverted: bool,
        out: *mut u8,
        out_len: usize,
    ) -> u8;
    fn bench_make(
        width: u32,
        height: u32,
        count: usize,
        gray: *const u8,
        gray_len: usize,
        dithered: bool,
        work: *mut i16,
        work_len: usize,
        out: *mut u8,
        out_len: usize,
    ) -> u8;
    fn bench_threshold(
        width: u32,
        height: u32,
        gray: *const u8,
        gray_len: usize,
        threshold: u8,
        out: *mut u8,
        out_len: usize,
    ) -> u8;
    fn bench_dither(
        width: u32,
        height: u32,
        gray: *const u8,
        gray_len: usize,
        work: *mut i16,
        work_len: usize,
        out: *mut u8,
        out_len: usize,
    ) -> u8;
}
