//! Inputs and outputs at changing places of a page: copying may take many times as long where the
//! output stands a little behind the input in its page.

/// A buffer of `len` bytes that starts `step` bytes on in a page each time, so that the times do
/// not hang on one place of the output.
pub struct Lent {
    bytes: Vec<u8>,
    len: usize,
    step: usize,
    at: usize,
}

impl Lent {
    pub fn new(len: usize, step: usize) -> Lent {
        let bytes = vec![0; len + 4096];
        Lent {
            bytes,
            len,
            step,
            at: 0,
        }
    }

    pub fn next(&mut self) -> &mut [u8] {
        self.at = (self.at + self.step) % 4096;
        &mut self.bytes[self.at..self.at + self.len]
    }

    pub fn last(&self) -> &[u8] {
        &self.bytes[self.at..]
    }
}

/// The same bytes at 16 places of a page.
pub struct Copies {
    bytes: Vec<u8>,
    len: usize,
    step: usize,
}

impl Copies {
    pub fn new(bytes: &[u8]) -> Copies {
        let len = bytes.len();
        let step = len.next_multiple_of(4096) + 256;
        let mut copy = bytes.to_vec();
        copy.resize(step, 0);
        let bytes = copy.repeat(16);
        Copies { bytes, len, step }
    }

    /// Those of a round.
    pub fn of(&self, round: usize) -> &[u8] {
        &self.bytes[round % 16 * self.step..][..self.len]
    }
}
