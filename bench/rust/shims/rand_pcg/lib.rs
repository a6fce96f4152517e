//! In place of the kit's crate rand_pcg: the generator PCG-XSH-RR with 64 bits of state (O'Neill 2014), seeded as rand_core seeds it.
//! `simulate` and `demo` print what it draws, so its words have to be those of the kit's.
use rand_core::SeedableRng;
use rand_core::utils::NextWord;

const MULTIPLIER: u64 = 6364136223846793005;
/// The generator that makes a seed of 16 bytes from a number has this increment.
const SEED_INCREMENT: u64 = 0xA176_54E4_6FBE_17F3;

pub struct Lcg64Xsh32 {
    state: u64,
    increment: u64,
}

fn output(state: u64) -> u32 {
    let rotation = (state >> 59) as u32;
    let word = (((state >> 18) ^ state) >> 27) as u32;
    word.rotate_right(rotation)
}

impl Lcg64Xsh32 {
    fn step(&mut self) {
        self.state = self
            .state
            .wrapping_mul(MULTIPLIER)
            .wrapping_add(self.increment);
    }
}

impl SeedableRng for Lcg64Xsh32 {
    fn seed_from_u64(mut state: u64) -> Self {
        let mut seed = [0; 16];
        for word in seed.chunks_exact_mut(4) {
            state = state.wrapping_mul(MULTIPLIER).wrapping_add(SEED_INCREMENT);
            word.copy_from_slice(&output(state).to_le_bytes());
        }
        let seed = u128::from_le_bytes(seed);
        let increment = (seed >> 64) as u64 | 1;
        let mut generator = Lcg64Xsh32 {
            state: (seed as u64).wrapping_add(increment),
            increment,
        };
        generator.step();
        generator
    }
}

impl NextWord<u32> for Lcg64Xsh32 {
    fn next_word(&mut self) -> u32 {
        let word = output(self.state);
        self.step();
        word
    }
}
