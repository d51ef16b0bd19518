//! The model behind the library's C interface, to try the linking without the proved library.

use model::Model;
use std::slice::{from_raw_parts, from_raw_parts_mut};

/// # Safety
/// Each pointer is good for its length.
#[no_mangle]
pub unsafe extern "C" fn plumbsorrel_load(
    image: *const u8,
    image_length: usize,
    code: *mut u16,
    code_length: usize,
    common: *mut u16,
    common_length: usize,
    private: *mut u16,
    private_length: usize,
    state: *mut u16,
    state_length: usize,
) -> u64 {
    Model::new(None).load(
        from_raw_parts(image, image_length),
        from_raw_parts_mut(code, code_length),
        from_raw_parts_mut(common, common_length),
        from_raw_parts_mut(private, private_length),
        from_raw_parts_mut(state, state_length),
    )
}

/// # Safety
/// Each pointer is good for its length.
#[no_mangle]
pub unsafe extern "C" fn plumbsorrel_step(
    code: *const u16,
    code_length: usize,
    common: *mut u16,
    common_length: usize,
    private: *mut u16,
    private_length: usize,
    state: *mut u16,
    state_length: usize,
) -> u64 {
    Model::new(None).step(
        from_raw_parts(code, code_length),
        from_raw_parts_mut(common, common_length),
        from_raw_parts_mut(private, private_length),
        from_raw_parts_mut(state, state_length),
    )
}

/// # Safety
/// Each pointer is good for its length.
#[no_mangle]
pub unsafe extern "C" fn plumbsorrel_run(
    code: *const u16,
    code_length: usize,
    budget: u32,
    common: *mut u16,
    common_length: usize,
    private: *mut u16,
    private_length: usize,
    state: *mut u16,
    state_length: usize,
) -> u64 {
    Model::new(None).run(
        from_raw_parts(code, code_length),
        budget,
        from_raw_parts_mut(common, common_length),
        from_raw_parts_mut(private, private_length),
        from_raw_parts_mut(state, state_length),
    )
}

/// # Safety
/// Each pointer is good for its length.
#[no_mangle]
pub unsafe extern "C" fn plumbsorrel_tick(state: *mut u16, state_length: usize) -> u64 {
    Model::new(None).tick(from_raw_parts_mut(state, state_length))
}

/// # Safety
/// Each pointer is good for its length.
#[no_mangle]
pub unsafe extern "C" fn plumbsorrel_bell(state: *mut u16, state_length: usize) -> u64 {
    Model::new(None).bell(from_raw_parts_mut(state, state_length))
}

/// # Safety
/// Each pointer is good for its length.
#[no_mangle]
pub unsafe extern "C" fn plumbsorrel_done(
    device: u16,
    status: u16,
    arg: u16,
    common: *mut u16,
    common_length: usize,
    private: *mut u16,
    private_length: usize,
    state: *mut u16,
    state_length: usize,
) -> u64 {
    Model::new(None).done(
        device,
        status,
        arg,
        from_raw_parts_mut(common, common_length),
        from_raw_parts_mut(private, private_length),
        from_raw_parts_mut(state, state_length),
    )
}

/// # Safety
/// Each pointer is good for its length.
#[no_mangle]
pub unsafe extern "C" fn plumbsorrel_write(
    edition: u16,
    length: u16,
    devices: u16,
    variables: u16,
    code: *const u16,
    code_length: usize,
    out: *mut u8,
    out_length: usize,
) -> u64 {
    Model::new(None).write(
        edition,
        length,
        devices,
        variables,
        from_raw_parts(code, code_length),
        from_raw_parts_mut(out, out_length),
    )
}

/// # Safety
/// Each pointer is good for its length.
#[no_mangle]
pub unsafe extern "C" fn plumbsorrel_is_sound(state: *const u16, state_length: usize) -> u64 {
    Model::new(None).is_sound(from_raw_parts(state, state_length))
}

/// # Safety
/// Each pointer is good for its length.
#[no_mangle]
pub unsafe extern "C" fn plumbsorrel_record(
    device: u16,
    common: *const u16,
    common_length: usize,
    private: *const u16,
    private_length: usize,
    state: *const u16,
    state_length: usize,
    record: *mut u16,
    record_length: usize,
) -> u64 {
    Model::new(None).record(
        device,
        from_raw_parts(common, common_length),
        from_raw_parts(private, private_length),
        from_raw_parts(state, state_length),
        from_raw_parts_mut(record, record_length),
    )
}
