//! In place of the kit's crate rand_core: the traits of generators.

pub trait SeedableRng: Sized {
    fn seed_from_u64(state: u64) -> Self;
}

pub mod utils {
    /// A generator with a next word that is known: `next_word` has no further effect.
    pub trait NextWord<W> {
        fn next_word(&mut self) -> W;
    }
}
