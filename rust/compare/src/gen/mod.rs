//! Seeded generators of images, programs, states and offers.

pub mod asm;
pub mod focus;
pub mod images;
pub mod jobs;
pub mod mutate;
pub mod programs;
pub mod states;
pub mod turns;

use crate::rng::Rng;

/// Words at which something changes.
const EDGES: [u16; 40] = [
    0, 1, 2, 3, 4, 5, 6, 7, 8, 9, 10, 11, 15, 16, 24, 25, 31, 32, 255, 256, 1023, 1024, 1025, 2043, 2044, 2045, 2047,
    2048, 2049, 4091, 4092, 4093, 4095, 4096, 4097, 16_256, 32_767, 32_768, 65_534, 65_535,
];

/// A word that is likely to sit at an edge.
pub fn edgy(rng: &mut Rng) -> u16 {
    match rng.below(8) {
        0..=3 => rng.pick(&EDGES),
        4 => rng.range(-12, 12) as u16,
        5 => rng.range(2048, 4096) as u16,
        6 => rng.below(64) as u16,
        _ => rng.word(),
    }
}
