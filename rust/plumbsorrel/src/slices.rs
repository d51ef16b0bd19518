//! The C interface on slices of any length, for a caller that offers what no [`Machine`](crate::Machine) holds:
//! words that are no machine's, stores of another length. Each function answers the number of the C interface
//! as it is (`docs/ABI.md`), and refuses what does not fit.

use crate::raw;

// In each function a pointer comes with its own slice's length, and the library keeps none of them.

/// Reads an image into the code buffer and a fresh machine, and clears both stores.
pub fn load(image: &[u8], code: &mut [u16], common: &mut [u16], private: &mut [u16], state: &mut [u16]) -> u64 {
    unsafe {
        raw::plumbsorrel_load(
            image.as_ptr(),
            image.len(),
            code.as_mut_ptr(),
            code.len(),
            common.as_mut_ptr(),
            common.len(),
            private.as_mut_ptr(),
            private.len(),
            state.as_mut_ptr(),
            state.len(),
        )
    }
}

/// Runs one instruction.
pub fn step(code: &[u16], common: &mut [u16], private: &mut [u16], state: &mut [u16]) -> u64 {
    unsafe {
        raw::plumbsorrel_step(
            code.as_ptr(),
            code.len(),
            common.as_mut_ptr(),
            common.len(),
            private.as_mut_ptr(),
            private.len(),
            state.as_mut_ptr(),
            state.len(),
        )
    }
}

/// Runs up to `budget` instructions.
pub fn run(code: &[u16], budget: u32, common: &mut [u16], private: &mut [u16], state: &mut [u16]) -> u64 {
    unsafe {
        raw::plumbsorrel_run(
            code.as_ptr(),
            code.len(),
            budget,
            common.as_mut_ptr(),
            common.len(),
            private.as_mut_ptr(),
            private.len(),
            state.as_mut_ptr(),
            state.len(),
        )
    }
}

/// Moves the clock by a thousandth of a second.
pub fn tick(state: &mut [u16]) -> u64 {
    unsafe { raw::plumbsorrel_tick(state.as_mut_ptr(), state.len()) }
}

/// Rings the terminal's bell.
pub fn bell(state: &mut [u16]) -> u64 {
    unsafe { raw::plumbsorrel_bell(state.as_mut_ptr(), state.len()) }
}

/// Ends the operation of a busy device.
pub fn done(device: u16, status: u16, arg: u16, common: &mut [u16], private: &mut [u16], state: &mut [u16]) -> u64 {
    unsafe {
        raw::plumbsorrel_done(
            device,
            status,
            arg,
            common.as_mut_ptr(),
            common.len(),
            private.as_mut_ptr(),
            private.len(),
            state.as_mut_ptr(),
            state.len(),
        )
    }
}

/// Writes the image of a header and its code.
pub fn write(edition: u16, length: u16, devices: u16, variables: u16, code: &[u16], out: &mut [u8]) -> u64 {
    unsafe {
        raw::plumbsorrel_write(
            edition,
            length,
            devices,
            variables,
            code.as_ptr(),
            code.len(),
            out.as_mut_ptr(),
            out.len(),
        )
    }
}

/// Answers 1 for a sound state, else 0.
pub fn is_sound(state: &[u16]) -> u64 {
    unsafe { raw::plumbsorrel_is_sound(state.as_ptr(), state.len()) }
}

/// Copies the record of a busy device.
pub fn record(device: u16, common: &[u16], private: &[u16], state: &[u16], record: &mut [u16]) -> u64 {
    unsafe {
        raw::plumbsorrel_record(
            device,
            common.as_ptr(),
            common.len(),
            private.as_ptr(),
            private.len(),
            state.as_ptr(),
            state.len(),
            record.as_mut_ptr(),
            record.len(),
        )
    }
}
