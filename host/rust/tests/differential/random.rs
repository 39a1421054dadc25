//! The generator of each case: the same number draws the same case everywhere.

pub use reference::random::Random;

/// The seed of every case.
pub const SEED: u64 = 0x2433_1994_1320_0046;

/// The generator of one case.
pub fn of_case(case: u64) -> Random {
    let mut random = Random::new(SEED ^ case.wrapping_mul(0xD134_2543_DE82_EF95));
    random.number();
    random
}
