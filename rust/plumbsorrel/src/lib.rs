//! The proved machine, safe to use from Rust: images, instructions, the clock, the bell and devices.
//!
//! A [`Machine`] owns its state, its code and both stores. The program around it does four things: it runs
//! instructions, ticks the clock, serves the devices that have started, and rings the bell.
//!
//! ```
//! use plumbsorrel::{write, End, Header, Machine};
//!
//! // KTRAP 0, KTRAP 4: waits for the next second, then ends.
//! let image = write(Header::default(), &[28, 0, 28, 4])?;
//! let mut machine = Machine::load(&image)?;
//! assert_eq!(machine.run(100)?.end, End::Idle);
//! for _ in 0..1000 {
//!     machine.tick()?;
//! }
//! assert_eq!((machine.run(100)?.count, machine.seconds()), (1, 1));
//! # Ok::<(), plumbsorrel::Refusal>(())
//! ```

#![no_std]
#![deny(missing_docs)]

extern crate alloc;

mod answer;
mod machine;
mod raw;
pub mod slices;

pub use answer::{End, Ran, Refusal};
pub use machine::{Machine, Record, Stop};

use alloc::{vec, vec::Vec};

/// Words of the state.
pub const STATE: usize = 822;
/// Version of the state's layout, raised with every request that changes the state's words.
pub const LAYOUT_VERSION: u32 = 2;
/// Words of the common store.
pub const COMMON: usize = 2_048;
/// Words of the private store, 2,048 for each of ten processes.
pub const PRIVATE: usize = 20_480;
/// The most words of code that an image holds.
pub const CODE: usize = 16_256;
/// Bytes of a block of an image.
pub const BLOCK: usize = 512;
/// Words of code in a block.
const CONTENT: usize = 254;

/// What an image says besides its code; its edition is 1.
#[derive(Clone, Copy, Debug, Default, PartialEq, Eq)]
pub struct Header {
    /// The devices that are present, a bit for each: terminal 1, disk 2, tape 4, printer 8, card reader 16.
    pub devices: u16,
    /// The variables of process 0, 0 to 1,024.
    pub variables: u16,
}

/// The image of a header and its code. Refused with [`Refusal::Header`] where a field is out of range or there is
/// no code, or more than [`CODE`] words.
pub fn write(header: Header, code: &[u16]) -> Result<Vec<u8>, Refusal> {
    // A length that no word holds is out of range, as 0 is.
    let length = u16::try_from(code.len()).unwrap_or(0);
    let mut image = vec![0; (1 + usize::from(length).div_ceil(CONTENT)) * BLOCK];
    let number = slices::write(1, length, header.devices, header.variables, code, &mut image);
    answer::taken(number).map(|_| image)
}
