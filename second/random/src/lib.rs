//! Random bytes by a seed: the same seed plays the same inputs again.

pub struct Random(u64);

/// Numbers at which something may change.
const EDGES: [u64; 12] =
    [0, 1, 2, 100, 255, 256, 1 << 32, 1 << 40, (1 << 62) - 1, 1 << 62, u64::MAX - 1, u64::MAX];

impl Random {
    pub fn new(seed: u64) -> Random {
        Random(seed ^ 0x9e37_79b9_7f4a_7c15)
    }

    /// The next number (splitmix64).
    pub fn next(&mut self) -> u64 {
        self.0 = self.0.wrapping_add(0x9e37_79b9_7f4a_7c15);
        let a = (self.0 ^ self.0 >> 30).wrapping_mul(0xbf58_476d_1ce4_e5b9);
        let b = (a ^ a >> 27).wrapping_mul(0x94d0_49bb_1331_11eb);
        b ^ b >> 31
    }

    /// A number below n.
    pub fn below(&mut self, n: usize) -> usize {
        (self.next() % n as u64) as usize
    }

    /// A number of 64 bits, often one at an edge.
    pub fn number(&mut self) -> u64 {
        if self.below(3) == 0 { self.next() } else { EDGES[self.below(EDGES.len())] }
    }

    pub fn bytes(&mut self, length: usize) -> Vec<u8> {
        (0..length).map(|_| self.next() as u8).collect()
    }
}
