//! Offers made to the model and the library side by side.

pub mod cases;
pub mod session;
pub mod watch;
pub mod world;
