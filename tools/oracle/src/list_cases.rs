//! Lists of calls under construction: each runs on its machine as it grows, so that the next piece
//! can be the next part of what is not taken.

use oracle::decode_lists::Reading;
use oracle::encode_lists::{Making, Opening};
use oracle::lists::{Call, Stage, put_stages, two};
use oracle::settings::reading;

/// The most calls in a stage.
const CALLS: usize = 256;

/// A making's input: what the output holds at first, the lengths of work and output lent to the
/// opening.
pub fn making_input(
    opening: &Opening,
    mark: u8,
    lent: [usize; 2],
    samples: &[u8],
    stages: &[Stage],
) -> Vec<u8> {
    let sizes = [opening.width.to_be_bytes(), opening.height.to_be_bytes()].concat();
    let lengths = [lent[0], lent[1], opening.fields.len(), samples.len()].map(two);
    [
        &[opening.strict.into(), opening.kind],
        &sizes[..],
        &[opening.number, mark],
        &lengths.concat(),
        &opening.fields,
        samples,
        &put_stages(stages),
    ]
    .concat()
}

/// A reading's input: settings, what the buffers hold at first, the length of the extension buffer
/// lent to the opening.
pub fn reading_input(
    settings: &[u8],
    mark: u8,
    ext: usize,
    file: &[u8],
    stages: &[Stage],
) -> Vec<u8> {
    let lengths = [two(ext), two(file.len())].concat();
    [settings, &[mark], &lengths, file, &put_stages(stages)].concat()
}

/// Stages that grow at their end.
pub struct Stages(pub Vec<Stage>);

impl Stages {
    /// The first has no call: of the opened session only is asked.
    pub fn new() -> Stages {
        let mut stages = Stages(Vec::new());
        stages.begin(0);
        stages.begin(0);
        stages
    }

    pub fn begin(&mut self, letter: u8) {
        let calls = Vec::new();
        self.0.push(Stage { letter, calls });
    }

    pub fn push(&mut self, call: Call) {
        let last = self.0.last_mut().expect("a stage");
        last.calls.push(call);
        if last.calls.len() == CALLS {
            self.begin(0);
        }
    }

    /// The length of all outputs.
    pub fn out(&self) -> usize {
        self.0.iter().map(Stage::out).sum()
    }
}

pub struct MakingCase {
    pub opening: Opening,
    pub mark: u8,
    pub lent: [usize; 2],
    pub samples: Vec<u8>,
    pub stages: Stages,
    pub session: Making,
    /// Where the samples start that are not taken.
    pub at: usize,
}

impl MakingCase {
    pub fn new(opening: Opening, mark: u8, lent: [usize; 2], samples: Vec<u8>) -> MakingCase {
        let (session, _) = Making::open(opening.clone(), lent[0], lent[1]);
        MakingCase {
            opening,
            mark,
            lent,
            samples,
            stages: Stages::new(),
            session,
            at: 0,
        }
    }

    /// The next so many samples, as far as there are.
    pub fn feed(&mut self, len: usize, out: usize, work: usize) {
        let call = Call {
            feeds: true,
            start: self.at,
            len: len.min(self.samples.len() - self.at),
            out,
            buffer: work,
        };
        self.stages.push(call);
        let (answer, _) = self.session.call(&call, &self.samples);
        if answer[0] == 0 {
            self.at += answer[1] as usize;
        }
    }

    pub fn close(&mut self) {
        self.stages.push(Call::CLOSES);
        self.session.close();
    }

    pub fn input(&self) -> Vec<u8> {
        let stages = &self.stages.0;
        making_input(&self.opening, self.mark, self.lent, &self.samples, stages)
    }
}

pub struct ReadingCase {
    pub settings: Vec<u8>,
    pub mark: u8,
    pub ext: usize,
    pub file: Vec<u8>,
    pub stages: Stages,
    pub session: Reading,
    /// Where the bytes start that are not taken.
    pub at: usize,
}

impl ReadingCase {
    pub fn new(settings: Vec<u8>, mark: u8, ext: usize, file: Vec<u8>) -> ReadingCase {
        let (session, _) = Reading::open(reading(&settings), ext);
        ReadingCase {
            settings,
            mark,
            ext,
            file,
            stages: Stages::new(),
            session,
            at: 0,
        }
    }

    /// The next so many bytes, as far as there are.
    pub fn feed(&mut self, len: usize, out: usize, ext: usize) {
        let len = len.min(self.file.len() - self.at);
        let taken = self.feed_at(self.at, len, out, ext);
        self.at += taken;
    }

    /// Bytes from anywhere in the file; how many were taken.
    pub fn feed_at(&mut self, start: usize, len: usize, out: usize, ext: usize) -> usize {
        let call = Call {
            feeds: true,
            start,
            len,
            out,
            buffer: ext,
        };
        self.stages.push(call);
        match self.session.call(&call, &self.file).answer {
            [0, taken, _] => taken as usize,
            _ => 0,
        }
    }

    pub fn close(&mut self) {
        self.stages.push(Call::CLOSES);
        self.session.close();
    }

    pub fn input(&self) -> Vec<u8> {
        let stages = &self.stages.0;
        reading_input(&self.settings, self.mark, self.ext, &self.file, stages)
    }

    /// The input of a reading whose file is another's output: none is in it.
    pub fn input_without_file(&self) -> Vec<u8> {
        reading_input(&self.settings, self.mark, self.ext, &[], &self.stages.0)
    }
}
