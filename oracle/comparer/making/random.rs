// Numbers drawn from a seed (splitmix64).
pub struct Random(u64);

impl Random {
    pub fn new(seed: u64) -> Self {
        Random(seed)
    }

    pub fn number(&mut self) -> u64 {
        self.0 = self.0.wrapping_add(0x9E37_79B9_7F4A_7C15);
        let mut mixed = self.0;
        mixed = (mixed ^ (mixed >> 30)).wrapping_mul(0xBF58_476D_1CE4_E5B9);
        mixed = (mixed ^ (mixed >> 27)).wrapping_mul(0x94D0_49BB_1331_11EB);
        mixed ^ (mixed >> 31)
    }

    pub fn below(&mut self, size: u64) -> u64 {
        self.number() % size
    }

    pub fn up_to(&mut self, most: usize) -> usize {
        self.below(most as u64 + 1) as usize
    }

    pub fn byte(&mut self) -> u8 {
        self.number() as u8
    }

    // True once in so many times.
    pub fn once_in(&mut self, times: u64) -> bool {
        self.below(times) == 0
    }

    pub fn of<T: Copy>(&mut self, choices: &[T]) -> T {
        choices[self.below(choices.len() as u64) as usize]
    }

    pub fn bytes(&mut self, count: usize) -> Vec<u8> {
        (0..count).map(|_| self.byte()).collect()
    }

    // A number of any magnitude, often next to a power of two.
    pub fn integer(&mut self) -> u64 {
        let bits = self.below(65) as u32;
        let power = 1u64.checked_shl(bits).unwrap_or(0);
        match self.below(4) {
            0 => power,
            1 => power.wrapping_sub(1),
            2 => power.wrapping_add(self.below(3)),
            _ => self.number() & power.wrapping_sub(1),
        }
    }
}
