//! Lists of calls on a session. A list is in stages: after each of them what it leaves is told.
//!
//! A stage is a letter for the work buffer, the length of its output in two bytes, how many calls
//! it has in two, and the calls. A call is five numbers of two bytes: what it is (0 closes, any
//! other number feeds), where its piece starts and how long it is, how many bytes of output and
//! how long a work or extension buffer it is lent. The outputs of a stage's calls stand one behind
//! the other; the buffer is lent from its front.

#[derive(Clone, Copy)]
pub struct Call {
    pub feeds: bool,
    pub start: usize,
    pub len: usize,
    pub out: usize,
    pub buffer: usize,
}

#[derive(Clone)]
pub struct Stage {
    pub letter: u8,
    pub calls: Vec<Call>,
}

/// What a stage leaves: three numbers for each call, its output, the extension buffer, which a making
/// has not, and what can then be asked of the session: 1 where it is closed, how many frames are done;
/// of a reading 1 where its fields are known, their kind, start, length and pairs.
#[derive(Clone, PartialEq, Eq, Debug)]
pub struct Left {
    pub answers: Vec<[u64; 3]>,
    pub out: Vec<u8>,
    pub buffer: Vec<u8>,
    pub asked: Vec<u64>,
}

/// How long a call is in the input.
const CALL: usize = 10;
/// How long a stage is in the input without its calls.
const STAGE: usize = 5;

impl Call {
    pub const CLOSES: Call = Call {
        feeds: false,
        start: 0,
        len: 0,
        out: 0,
        buffer: 0,
    };

    fn at(input: &[u8]) -> Call {
        Call {
            feeds: short(input, 0) != 0,
            start: short(input, 2),
            len: short(input, 4),
            out: short(input, 6),
            buffer: short(input, 8),
        }
    }

    fn input(&self) -> Vec<u8> {
        let numbers = [
            self.feeds.into(),
            self.start,
            self.len,
            self.out,
            self.buffer,
        ];
        numbers.iter().flat_map(|&n| two(n)).collect()
    }

    pub fn piece<'a>(&self, text: &'a [u8]) -> &'a [u8] {
        &text[self.start..self.start + self.len]
    }
}

impl Stage {
    /// The length of its output.
    pub fn out(&self) -> usize {
        self.calls.iter().map(|call| call.out).sum()
    }

    fn input(&self) -> Vec<u8> {
        let calls: Vec<u8> = self.calls.iter().flat_map(Call::input).collect();
        let numbers = [two(self.out()), two(self.calls.len())].concat();
        [&[self.letter], &numbers[..], &calls].concat()
    }
}

/// The stages as an input has them.
pub fn put_stages(stages: &[Stage]) -> Vec<u8> {
    stages.iter().flat_map(Stage::input).collect()
}

/// The stages in an input.
pub fn stages_at(input: &[u8]) -> Vec<Stage> {
    let mut stages = Vec::new();
    let mut rest = input;
    while !rest.is_empty() {
        let (head, behind) = rest.split_at(STAGE);
        let (calls, later) = behind.split_at(CALL * short(head, 3));
        let stage = Stage {
            letter: head[0],
            calls: calls.chunks(CALL).map(Call::at).collect(),
        };
        assert_eq!(stage.out(), short(head, 1));
        stages.push(stage);
        rest = later;
    }
    stages
}

pub fn short(input: &[u8], at: usize) -> usize {
    usize::from(input[at]) * 256 + usize::from(input[at + 1])
}

pub fn two(number: usize) -> [u8; 2] {
    u16::try_from(number)
        .expect("a number of 16 bits")
        .to_be_bytes()
}
