//! A generator of numbers that gives the same ones for the same seed (xorshift64*).

pub struct Random(u64);

impl Random {
    pub fn new(seed: u64) -> Random {
        Random(seed.wrapping_mul(0x9E37_79B9_7F4A_7C15) | 1)
    }

    fn next(&mut self) -> u64 {
        self.0 ^= self.0 >> 12;
        self.0 ^= self.0 << 25;
        self.0 ^= self.0 >> 27;
        self.0.wrapping_mul(0x2545_F491_4F6C_DD1D)
    }

    pub fn below(&mut self, n: usize) -> usize {
        (self.next() >> 33) as usize % n
    }

    pub fn byte(&mut self) -> u8 {
        (self.next() >> 56) as u8
    }

    pub fn bytes(&mut self, len: usize) -> Vec<u8> {
        (0..len).map(|_| self.byte()).collect()
    }

    /// A byte changed, a bit flipped, a byte more or less, an end cut off or appended; mostly
    /// near the front, where the header is.
    pub fn damage(&mut self, file: &mut Vec<u8>) {
        let front = file.len().min(12);
        let span = [front, file.len()][usize::from(self.below(4) == 0)];
        let at = self.below(span.max(1));
        let byte = self.byte();
        match self.below(6) {
            0 if at < file.len() => file[at] = byte,
            1 if at < file.len() => file[at] ^= 1 << (byte % 8),
            2 if at < file.len() => drop(file.remove(at)),
            3 => file.truncate(at),
            4 => file.extend(self.bytes(at)),
            _ => file.insert(at.min(file.len()), byte),
        }
    }
}
