//! Lists of calls that document 01 tells in words, and the corners between them, each with the
//! answers, outputs and buffers that are stated: the generator ends if the machine says otherwise.

use crate::cases::{Group, Operation, Sweep};
use crate::list_cases::Stages;
use crate::{stated_makings, stated_readings};
use oracle::answer::Answer;
use oracle::lists::{Call, Left};

/// What outputs and extension buffers hold at first.
pub const MARK: u8 = 0xA5;

pub fn groups() -> Vec<Group> {
    let (makings, readings) = (stated_makings::lists(), stated_readings::lists());
    vec![
        group("stated making lists", Operation::MakingList, makings),
        group("stated reading lists", Operation::ReadingList, readings),
    ]
}

/// An input, and what is stated of it.
pub type Stated = (Vec<u8>, Answer);

fn group(name: &'static str, operation: Operation, lists: Vec<Stated>) -> Group {
    let sweep = |(k, (input, stated)): (usize, Stated)| {
        let answer = operation.answer(&input);
        assert_eq!(answer.accepted, stated.accepted, "{name} {k}, opening");
        assert_eq!(answer.output, stated.output, "{name} {k}, opening");
        let stages = answer.stages.iter().zip(&stated.stages);
        let stages: Vec<Left> = stages.map(|(left, typed)| told(left, typed)).collect();
        assert_eq!(answer.stages, stages, "{name} {k}");
        if let (Some(header), Some(seen)) = (&stated.then, &answer.then) {
            assert_eq!(seen.accepted, header.accepted, "{name} {k}, header");
        }
        Sweep::one(input)
    };
    Group {
        name,
        operation,
        sweeps: lists.into_iter().enumerate().map(sweep).collect(),
    }
}

/// What is stated of a stage; where it is not stated what can be asked, this is as it is.
fn told(left: &Left, typed: &Left) -> Left {
    let asked = if typed.asked.is_empty() { left } else { typed };
    Left {
        asked: asked.asked.clone(),
        ..typed.clone()
    }
}

/// A list that is typed: pieces with their answers, one stage for each call.
pub struct Typed {
    pub stages: Stages,
    pub text: Vec<u8>,
    pub left: Vec<Left>,
    /// The extension buffer; a making has none.
    pub buffer: Vec<u8>,
}

impl Typed {
    pub fn new(buffer: usize) -> Typed {
        Typed {
            stages: Stages(Vec::new()),
            text: Vec::new(),
            left: Vec::new(),
            buffer: vec![MARK; buffer],
        }
    }

    /// A feeding call with so much output and buffer; its answer and the bytes written.
    pub fn feed(&mut self, piece: &[u8], lent: [usize; 2], answer: [u64; 3], written: &[u8]) {
        let call = Call {
            feeds: true,
            start: self.text.len(),
            len: piece.len(),
            out: lent[0],
            buffer: lent[1],
        };
        self.text.extend_from_slice(piece);
        self.put(0, call, answer, written);
    }

    fn put(&mut self, letter: u8, call: Call, answer: [u64; 3], written: &[u8]) {
        self.stages.begin(letter);
        self.stages.push(call);
        let mut out = written.to_vec();
        out.resize(call.out, MARK);
        self.left.push(Left {
            answers: vec![answer],
            out,
            buffer: self.buffer.clone(),
            asked: Vec::new(),
        });
    }

    /// What can be asked after the last call.
    pub fn asked(&mut self, numbers: &[u64]) {
        self.left.last_mut().expect("a call").asked = numbers.to_vec();
    }

    pub fn close(&mut self, answer: [u64; 3]) {
        self.put(16, Call::CLOSES, answer, &[]);
    }
}
