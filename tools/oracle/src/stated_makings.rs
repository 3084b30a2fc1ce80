//! Lists of calls on makings with the answers that are stated.

use crate::encoder_cases::ABSENT;
use crate::list_cases::making_input;
use crate::stated_lists::{MARK, Stated, Typed};
use crate::writer_cases::pairs;
use oracle::answer::Answer;
use oracle::encode_lists::{self, Opening};

pub fn lists() -> Vec<Stated> {
    [opened(), fed(), frames(), rules(), refused()].concat()
}

/// A making that is typed.
struct Made {
    opening: Opening,
    lent: [usize; 2],
    answer: Vec<u64>,
    header: Vec<u8>,
    list: Typed,
    /// The stages whose dots are open.
    open_dots: Vec<usize>,
}

/// The kind of rule and its number.
type Rule = (u8, u8);

const THRESHOLD: Rule = (0, 128);
const DITHER: Rule = (1, 0);

/// A making of a size by a rule, opened with so much work and output; what opening answers, and the
/// header.
fn make(size: [u32; 2], rule: Rule, lent: [usize; 2], answer: &[u64], header: &[u8]) -> Made {
    Made {
        opening: Opening {
            strict: false,
            kind: rule.0,
            width: size[0],
            height: size[1],
            number: rule.1,
            fields: ABSENT.to_vec(),
        },
        lent,
        answer: answer.to_vec(),
        header: header.to_vec(),
        list: Typed::new(0),
        open_dots: Vec::new(),
    }
}

/// One that is opened with an output of 8 bytes and just enough work.
fn open(size: [u32; 2], rule: Rule, header: &[u8]) -> Made {
    let work = match rule.0 {
        1 => 2 * size[0] as usize,
        _ => 0,
    };
    make(size, rule, [work, 8], &[0, header.len() as u64], header)
}

impl Made {
    fn fields(mut self, strict: bool, fields: &[u8]) -> Made {
        self.opening.strict = strict;
        self.opening.fields = fields.to_vec();
        self
    }

    fn feed(mut self, piece: &[u8], lent: [usize; 2], answer: [u64; 3], written: &[u8]) -> Made {
        self.list.feed(piece, lent, answer, written);
        self
    }

    /// A call that has to leave the work buffer as it is.
    fn refuses(mut self, piece: &[u8], lent: [usize; 2], number: u64) -> Made {
        self.list.feed(piece, lent, [number, 0, 0], &[]);
        self.list.stages.0.last_mut().expect("a stage").letter = 16;
        self
    }

    /// A call before which somebody else writes the work buffer: its dots are not compared.
    fn foreign(mut self, piece: &[u8], lent: [usize; 2], answer: [u64; 3], letter: u8) -> Made {
        let written = vec![MARK; answer[2] as usize];
        self.list.feed(piece, lent, answer, &written);
        self.list.stages.0.last_mut().expect("a stage").letter = 8 + letter;
        self.open_dots.push(self.list.left.len() - 1);
        self
    }

    fn close(mut self, number: u64) -> Made {
        self.list.close([number, 0, 0]);
        self
    }

    /// What can be asked after the last call: 1 where it is closed, and the frames done.
    fn asked(mut self, numbers: &[u64]) -> Made {
        self.list.asked(numbers);
        self
    }

    fn stated(self) -> Stated {
        let stages = &self.list.stages.0;
        let input = making_input(&self.opening, MARK, self.lent, &self.list.text, stages);
        let mut output = self.header;
        output.resize(self.lent[1], MARK);
        let mut stages = self.list.left;
        let machine = encode_lists::list(&input).stages;
        for k in self.open_dots {
            stages[k].out.clone_from(&machine[k].out);
        }
        let answer = Answer {
            output,
            stages,
            ..Answer::of(&self.answer)
        };
        (input, answer)
    }
}

/// Opening gives the header's length; 25 and the other refusals leave a closed session.
fn opened() -> Vec<Stated> {
    let shut = |made: Made| {
        made.feed(b"\xFF", [1, 4], [30, 0, 0], b"")
            .close(30)
            .asked(&[1])
            .stated()
    };
    let refused = |size, rule, lent, number| make(size, rule, lent, &[number], b"");
    let fields = |fields: &[u8], strict, number| {
        refused([1, 1], THRESHOLD, [0, 99], number).fields(strict, fields)
    };
    let overlong = [&[0, 0x80][..], &[0x85; 4096], &[0x05, 1, 1]].concat();
    vec![
        // Width 0, height 0, and 8 before 29 and 28.
        shut(refused([0, 1], THRESHOLD, [0, 9], 8)),
        shut(refused([1, 0], (2, 3), [0, 9], 8)),
        shut(refused([0, 0], DITHER, [0, 0], 8)),
        // Unknown sides; 29 before fields and 25.
        shut(refused([1, 1], (2, 1), [0, 9], 29)),
        shut(refused([1, 1], (2, 3), [0, 0], 29)),
        shut(refused([1, 1], (2, 16), [0, 9], 29).fields(false, &[3, 0, 0])),
        // One number of work short; 28 before fields and 25.
        shut(refused([2, 1], DITHER, [3, 9], 28)),
        shut(refused([2, 1], DITHER, [0, 0], 28).fields(false, &[3, 0, 0])),
        // Twice the width is past 32 bits.
        shut(refused([1 << 31, 1], DITHER, [256, 9], 28)),
        shut(refused([u32::MAX, 1], DITHER, [256, 9], 28)),
        // Fields: 31, 23, 24, 11, 12 and, strict, 14 and 15; before 25.
        shut(fields(&[3, 0, 2, 1, 1, b'k'], false, 31)),
        shut(fields(&[0, 0, 0], false, 23)),
        shut(fields(&[1, 0, 0], false, 23)),
        shut(fields(&[0, 0, 0, 0x80], false, 24)),
        shut(fields(&pairs(&[(b"", b"v")]), false, 11)),
        shut(fields(&pairs(&[(b"k", b"")]), false, 12)),
        shut(fields(&pairs(&[(b"\x80", b"v")]), true, 14)),
        shut(fields(&pairs(&[(b"k", b"-")]), true, 15)),
        // The output a byte short, and none.
        shut(refused([9, 2], THRESHOLD, [0, 3], 25)),
        shut(refused([9, 2], THRESHOLD, [0, 0], 25)),
        // Exactly long enough; threshold and ordered rule want no work.
        make([9, 2], THRESHOLD, [0, 4], &[0, 4], b"\x00\x00\x09\x02").stated(),
        make([9, 2], (2, 8), [0, 4], &[0, 4], b"\x00\x00\x09\x02").stated(),
        make([9, 2], DITHER, [18, 9], &[0, 4], b"\x00\x00\x09\x02").stated(),
        // An overlong field is written.
        make([1, 1], THRESHOLD, [0, 4101], &[0, 4101], &overlong)
            .fields(false, &[&[0, 0, 0][..], &[0x05; 4097]].concat())
            .stated(),
        // Fields of each kind stand behind the FixHeader.
        make(
            [1, 1],
            THRESHOLD,
            [0, 9],
            &[0, 6],
            b"\x00\x80\x81\x7F\x01\x01",
        )
        .fields(false, &[0, 0, 0, 0x01, 0x7F])
        .stated(),
        make([1, 1], THRESHOLD, [0, 5], &[0, 5], b"\x00\xA0\x91\x01\x01")
            .fields(false, &[1, 0, 0, 0x91, 0x02])
            .stated(),
        make(
            [1, 1],
            THRESHOLD,
            [0, 9],
            &[0, 8],
            b"\x00\xE0\x12k12\x01\x01",
        )
        .fields(true, &pairs(&[(b"k", b"12")]))
        .stated(),
    ]
}

/// No output still takes up to 7 samples, fewer where the row ends; c samples of a begun row finish
/// c / 8 bytes; what closing says inside a frame and before the first.
fn fed() -> Vec<Stated> {
    let white = [0xFF; 20];
    vec![
        // Nine by two: seven samples without output, then none.
        open([9, 2], THRESHOLD, b"\x00\x00\x09\x02")
            .close(22)
            .feed(&white[..18], [0, 0], [0, 7, 0], b"")
            .feed(&white[..11], [0, 0], [0, 0, 0], b"")
            .close(22)
            .feed(&white[..11], [1, 0], [0, 1, 1], b"\xFF")
            .feed(&white[..10], [0, 0], [0, 0, 0], b"")
            .feed(&white[..10], [1, 0], [0, 8, 1], b"\x80")
            .feed(&white[..2], [9, 0], [0, 2, 2], b"\xFF\x80")
            .asked(&[0, 1])
            .close(0)
            .asked(&[1, 1])
            .feed(&white[..1], [9, 9], [30, 0, 0], b"")
            .close(30)
            .stated(),
        // Three by two: a row ends before 8 samples, so two are taken without output.
        open([3, 2], THRESHOLD, b"\x00\x00\x03\x02")
            .feed(&[0xFF, 0, 0xFF, 0, 0xFF, 0], [0, 0], [0, 2, 0], b"")
            .feed(&[0xFF, 0, 0xFF, 0], [1, 0], [0, 3, 1], b"\xA0")
            .feed(&[0], [1, 0], [0, 1, 1], b"\x40")
            .close(0)
            .stated(),
        // One dot a row: none fits without output.
        open([1, 2], THRESHOLD, b"\x00\x00\x01\x02")
            .feed(&white[..2], [0, 0], [0, 0, 0], b"")
            .feed(b"", [4, 0], [0, 0, 0], b"")
            .feed(&white[..2], [2, 0], [0, 2, 2], b"\x80\x80")
            .close(0)
            .stated(),
        // Eight by one: the eighth sample finishes the byte.
        open([8, 1], THRESHOLD, b"\x00\x00\x08\x01")
            .feed(&white[..8], [0, 0], [0, 7, 0], b"")
            .feed(&white[..1], [1, 0], [0, 1, 1], b"\xFF")
            .close(0)
            .stated(),
    ]
}

/// None past 16 frames, and no refusal; clean carries and row 0 in each frame; 2^32 - 1 columns.
fn frames() -> Vec<Stated> {
    let white = vec![0xFF; 40];
    vec![
        open([1, 1], THRESHOLD, b"\x00\x00\x01\x01")
            .feed(&white[..18], [18, 0], [0, 16, 16], &[0x80; 16])
            .feed(&white[..2], [18, 0], [0, 0, 0], b"")
            .feed(b"", [0, 0], [0, 0, 0], b"")
            .close(0)
            .stated(),
        // 15 frames and the 16th begun: the piece of the 17th stays.
        open([9, 1], THRESHOLD, b"\x00\x00\x09\x01")
            .feed(&[0xFF; 139], [60, 0], [0, 139, 30], &b"\xFF\x80".repeat(15))
            .close(22)
            .feed(&white[..9], [9, 0], [0, 5, 2], b"\xFF\x80")
            .feed(&white[..4], [9, 0], [0, 0, 0], b"")
            .close(0)
            .stated(),
        // 127, 128 in a row is 40 by dithering, in each frame.
        open([2, 1], DITHER, b"\x00\x00\x02\x01")
            .feed(&[127], [1, 4], [0, 1, 0], b"")
            .feed(&[128, 127], [1, 4], [0, 2, 1], b"\x40")
            .feed(&[128, 127, 128], [2, 4], [0, 3, 2], b"\x40\x40")
            .close(0)
            .stated(),
        // Ordered, side 2: a frame starts with row 0, whose bounds are 32 and 160; those of row 1
        // are 224 and 96.
        open([2, 1], (2, 2), b"\x00\x00\x02\x01")
            .feed(&[100, 100, 100, 100], [2, 0], [0, 4, 2], b"\x80\x80")
            .close(0)
            .stated(),
        // The largest width and height: samples are taken and bytes finished.
        make(
            [u32::MAX, u32::MAX],
            THRESHOLD,
            [0, 20],
            &[0, 12],
            b"\x00\x00\x8F\xFF\xFF\xFF\x7F\x8F\xFF\xFF\xFF\x7F",
        )
        .feed(&white[..17], [9, 0], [0, 17, 2], b"\xFF\xFF")
        .feed(&white[..10], [0, 0], [0, 6, 0], b"")
        .close(22)
        .stated(),
        make(
            [1, u32::MAX],
            DITHER,
            [2, 9],
            &[0, 8],
            b"\x00\x00\x01\x8F\xFF\xFF\xFF\x7F",
        )
        .feed(&[128, 128], [9, 2], [0, 2, 2], b"\x80\x00")
        .close(22)
        .stated(),
    ]
}

/// Document 01's cards by each rule, in pieces; residuals of 128 and -128.
fn rules() -> Vec<Stated> {
    let in_three = |rows: [u8; 6], header: &[u8], bytes: [u8; 2]| {
        open([3, 2], DITHER, header)
            .feed(&rows[..2], [0, 6], [0, 2, 0], b"")
            .feed(&rows[2..5], [2, 6], [0, 3, 1], &bytes[..1])
            .feed(&rows[5..], [1, 6], [0, 1, 1], &bytes[1..])
            .close(0)
            .stated()
    };
    let header = b"\x00\x00\x03\x02";
    vec![
        // P8, P9, P11 and P12.
        open([2, 1], DITHER, b"\x00\x00\x02\x01")
            .feed(&[127], [1, 4], [0, 1, 0], b"")
            .feed(&[128], [1, 4], [0, 1, 1], b"\x40")
            .close(0)
            .stated(),
        open([1, 2], DITHER, b"\x00\x00\x01\x02")
            .feed(&[128], [1, 2], [0, 1, 1], b"\x80")
            .feed(&[128], [1, 2], [0, 1, 1], b"\x00")
            .close(0)
            .stated(),
        open([1, 1], (2, 8), b"\x00\x00\x01\x01")
            .feed(&[1, 2], [2, 0], [0, 2, 2], b"\x00\x80")
            .close(0)
            .stated(),
        open([9, 1], (0, 0), b"\x00\x00\x09\x01")
            .feed(&[0; 4], [0, 0], [0, 4, 0], b"")
            .feed(&[0; 5], [2, 0], [0, 5, 2], b"\xFF\x80")
            .close(0)
            .stated(),
        // Side 2: the bounds of row 0 are 32 and 160, of row 1 224 and 96.
        open([2, 2], (2, 2), b"\x00\x00\x02\x02")
            .feed(&[200, 200, 200], [1, 0], [0, 3, 1], b"\xC0")
            .feed(&[200], [1, 0], [0, 1, 1], b"\x40")
            .close(0)
            .stated(),
        // Thresholds 255 and 1.
        open([2, 1], (0, 255), b"\x00\x00\x02\x01")
            .feed(&[254, 255], [1, 0], [0, 2, 1], b"\x40")
            .stated(),
        open([2, 1], (0, 1), b"\x00\x00\x02\x01")
            .feed(&[0, 1], [1, 0], [0, 2, 1], b"\x40")
            .stated(),
        in_three([0x7F, 0x47, 0x47, 0x3F, 0xFF, 0x80], header, CORNERS[0]),
        in_three([0x80, 0xB8, 0xB8, 0xC0, 0x00, 0x80], header, CORNERS[1]),
        in_three([0x7F, 0x47, 0x47, 0x3F, 0x00, 0x80], header, CORNERS[2]),
    ]
}

/// The rows of the three scans whose residuals reach 128 and -128, worked out by hand.
const CORNERS: [[u8; 2]; 3] = [[0x00, 0x60], [0xE0, 0x80], [0x00, 0x40]];

/// 30 before 28; 28 alters nothing, whatever is lent; a refused call leaves the work buffer.
fn refused() -> Vec<Stated> {
    vec![
        open([2, 1], DITHER, b"\x00\x00\x02\x01")
            .refuses(&[127], [3, 3], 28)
            .feed(&[127], [1, 6], [0, 1, 0], b"")
            .refuses(&[128], [3, 0], 28)
            .refuses(b"", [0, 3], 28)
            .close(22)
            .feed(&[128], [1, 4], [0, 1, 1], b"\x40")
            .refuses(&[128], [1, 1], 28)
            .close(0)
            .refuses(&[128], [1, 0], 30)
            .refuses(&[128], [1, 9], 30)
            .close(30)
            .stated(),
        // Somebody else's numbers: the counts stay, and the next frame's dots are right.
        open([3, 2], DITHER, b"\x00\x00\x03\x02")
            .feed(&[0, 255], [0, 6], [0, 2, 0], b"")
            .foreign(&[255, 0], [1, 6], [0, 2, 1], 1)
            .foreign(&[255, 0, 255, 0], [1, 6], [0, 4, 1], 2)
            .feed(&[255, 0, 0, 0], [9, 6], [0, 4, 2], b"\xA0\x00")
            .close(0)
            .stated(),
        // Other rules accept every work buffer.
        open([1, 1], (2, 4), b"\x00\x00\x01\x01")
            .refuses(b"", [0, 0], 0)
            .refuses(b"", [3, 256], 0)
            .feed(&[255], [1, 0], [0, 1, 1], b"\x80")
            .close(0)
            .stated(),
    ]
}
