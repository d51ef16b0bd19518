//! The declarations of `include/plumbsorrel.h`.

extern "C" {
    pub fn plumbsorrel_load(
        image: *const u8,
        image_length: usize,
        code: *mut u16,
        code_length: usize,
        common: *mut u16,
        common_length: usize,
        private: *mut u16,
        private_length: usize,
        state: *mut u16,
        state_length: usize,
    ) -> u64;
    pub fn plumbsorrel_step(
        code: *const u16,
        code_length: usize,
        common: *mut u16,
        common_length: usize,
        private: *mut u16,
        private_length: usize,
        state: *mut u16,
        state_length: usize,
    ) -> u64;
    pub fn plumbsorrel_run(
        code: *const u16,
        code_length: usize,
        budget: u32,
        common: *mut u16,
        common_length: usize,
        private: *mut u16,
        private_length: usize,
        state: *mut u16,
        state_length: usize,
    ) -> u64;
    pub fn plumbsorrel_tick(state: *mut u16, state_length: usize) -> u64;
    pub fn plumbsorrel_bell(state: *mut u16, state_length: usize) -> u64;
    pub fn plumbsorrel_done(
        device: u16,
        status: u16,
        arg: u16,
        common: *mut u16,
        common_length: usize,
        private: *mut u16,
        private_length: usize,
        state: *mut u16,
        state_length: usize,
    ) -> u64;
    pub fn plumbsorrel_write(
        edition: u16,
        length: u16,
        devices: u16,
        variables: u16,
        code: *const u16,
        code_length: usize,
        out: *mut u8,
        out_length: usize,
    ) -> u64;
    pub fn plumbsorrel_is_sound(state: *const u16, state_length: usize) -> u64;
    pub fn plumbsorrel_record(
        device: u16,
        common: *const u16,
        common_length: usize,
        private: *const u16,
        private_length: usize,
        state: *const u16,
        state_length: usize,
        record: *mut u16,
        record_length: usize,
    ) -> u64;
}
