//! One comparison, and the counts.

use crate::capi::{self, Asked, Image, Info};
use crate::expected::{self, NO_LIMITS, Refusal};
use oracle::calls;
use std::time::Instant;

/// What the lent numbers and bytes hold before a call.
const INFO: Info = Info {
    width: 0xA1A1_A1A1,
    height: 0xB2B2_B2B2,
    frames: 0xC3C3_C3C3,
    body: 0xD4D4_D4D4,
    fix_header: 0xE5,
    fields_kind: 0xF6,
    fields_start: 0x1717_1717,
    fields_len: 0x2828_2828,
    pairs: 0x3939_3939,
};
const IMAGE: Image = Image {
    width: 0xA1A1_A1A1,
    height: 0xB2B2_B2B2,
    frames: 0xC3C3_C3C3,
    written: 0xD4D4_D4D4,
};
const FILL: u8 = 0xA5;
/// Bytes of our own before and behind the lent output, which nobody may write.
const GUARD: usize = 16;

/// How many calls were compared in all and in this class, and how often each number came.
pub struct Tally {
    all: u64,
    calls: u64,
    files: u64,
    numbers: [u64; 32],
    name: &'static str,
    lent: Vec<u8>,
}

impl Tally {
    pub fn new() -> Tally {
        Tally {
            all: 0,
            calls: 0,
            files: 0,
            numbers: [0; 32],
            name: "",
            lent: Vec::new(),
        }
    }

    pub fn class(&mut self, name: &'static str, mut run: impl FnMut(&mut Tally)) {
        let start = Instant::now();
        (self.name, self.calls, self.files) = (name, 0, 0);
        run(self);
        let (files, calls, seconds) = (self.files, self.calls, start.elapsed().as_secs());
        println!("{name}: {files} files, {calls} calls, all the same ({seconds} s)");
        self.all += calls;
    }

    pub fn finish(&self) {
        let numbers = self.numbers.iter().enumerate().filter(|(_, n)| **n > 0);
        let numbers: Vec<String> = numbers.map(|(i, n)| format!("{i}: {n}")).collect();
        println!("answers by number (0: accepted): {}", numbers.join(", "));
        println!("{} calls compared, no difference", self.all);
    }

    /// Sniffing, info and reading; format, strictness and output length change from file to file.
    pub fn file(&mut self, file: &[u8]) {
        let mut asked = NO_LIMITS;
        asked.format = (self.files % 2) as u32;
        asked.strict = u32::from(self.files % 7 == 3);
        let room = [file.len(), 3, 0][[0, 1, 0, 2, 0][self.files as usize % 5]];
        self.sniff(file);
        self.info(file);
        self.read(file, &asked, room);
    }

    /// Sniffing, info, and reading in every format and strictness, into enough and too little.
    pub fn file_all_ways(&mut self, file: &[u8]) {
        self.sniff(file);
        self.info(file);
        for i in 0..4 {
            let mut asked = NO_LIMITS;
            (asked.format, asked.strict) = (i % 2, i / 2);
            self.read(file, &asked, file.len());
            if let Ok((image, _)) = expected::read(file, &asked, usize::MAX) {
                self.read(file, &asked, image.written);
                self.read(file, &asked, image.written - 1);
            }
        }
    }

    fn sniff(&mut self, file: &[u8]) {
        self.files += 1;
        self.calls += 1;
        self.same(file, "sniff", &calls::sniff(file), &capi::sniff(file));
    }

    fn info(&mut self, file: &[u8]) {
        let want = expected::info(file);
        let mut told = INFO;
        let answer = capi::info(file, &mut told);
        let packed = self.packed(&want);
        self.same(file, "info", &packed, &answer);
        self.same(file, "info's lent numbers", &want.unwrap_or(INFO), &told);
    }

    pub fn read(&mut self, file: &[u8], asked: &Asked, room: usize) {
        let want = expected::read(file, asked, room);
        let mut image = IMAGE;
        self.lent.clear();
        self.lent.resize(room + 2 * GUARD, FILL);
        let out = &mut self.lent[GUARD..GUARD + room];
        let answer = capi::read(file, asked, out, &mut image);
        let packed = self.packed(&want);
        let (numbers, planes) = want.unwrap_or((IMAGE, Vec::new()));
        let (front, rest) = self.lent[GUARD..].split_at(planes.len());
        let untouched = self.lent[..GUARD].iter().chain(rest).all(|&b| b == FILL);
        let rust = (packed, numbers, true, true);
        let ours = (answer, image, front == planes, untouched);
        if rust != ours {
            let what = format!("read {asked:?} into {room}: answer, numbers, planes, rest");
            self.same(file, &what, &rust, &ours);
        }
    }

    /// An answer as the C functions pack it; it is counted.
    fn packed<T>(&mut self, want: &Result<T, Refusal>) -> u64 {
        let (code, place) = want.as_ref().err().copied().unwrap_or((0, 0));
        self.calls += 1;
        self.numbers[usize::from(code)] += 1;
        u64::from(code) + 256 * place
    }

    /// Ends the run at a difference.
    fn same<T: PartialEq + std::fmt::Debug>(&self, file: &[u8], what: &str, rust: &T, ours: &T) {
        if rust != ours {
            println!("DIFFERENT in class: {}", self.name);
            println!("file {file:02X?}\n{what}\nthe Rust {rust:02X?}\nours     {ours:02X?}");
            std::process::exit(1);
        }
    }
}
