//! Numbers that look random and are the same in every run.

/// Steele, Lea and Flood's SplitMix64. It is for a simulation: no key of a real channel may come from it.
#[derive(Clone, Debug)]
pub struct Rng {
    state: u64,
}

impl Rng {
    /// The numbers of a seed.
    pub fn new(seed: u64) -> Rng {
        Rng { state: seed }
    }

    /// The next 64 bits.
    pub fn word(&mut self) -> u64 {
        self.state = self.state.wrapping_add(0x9e37_79b9_7f4a_7c15);
        let mut z = self.state;
        z = (z ^ (z >> 30)).wrapping_mul(0xbf58_476d_1ce4_e5b9);
        z = (z ^ (z >> 27)).wrapping_mul(0x94d0_49bb_1331_11eb);
        z ^ (z >> 31)
    }

    /// A number below `end`.
    pub fn below(&mut self, end: u32) -> u32 {
        // The top 32 bits, scaled. What is left after the shift is below `end`.
        let scaled = (self.word() >> 32) * u64::from(end);
        (scaled >> 32) as u32
    }

    /// The next bytes.
    pub fn bytes<const N: usize>(&mut self) -> [u8; N] {
        let mut bytes = [0; N];
        for part in bytes.chunks_mut(8) {
            let word = self.word().to_le_bytes();
            part.copy_from_slice(&word[..part.len()]);
        }
        bytes
    }

    /// Another generator, whose numbers do not depend on how many are drawn here later.
    pub fn split(&mut self) -> Rng {
        Rng::new(self.word())
    }
}
