//! Holds the model against the library: seeded generators, and the harness that offers the same to both.

pub mod gen;
pub mod harness;
pub mod link;
pub mod rng;
