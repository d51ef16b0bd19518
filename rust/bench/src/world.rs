//! A machine's state, code and stores, as they are offered.

use plumbsorrel::{slices, STATE};

#[derive(Clone)]
pub struct World {
    pub code: Vec<u16>,
    pub common: Vec<u16>,
    pub private: Vec<u16>,
    pub state: Vec<u16>,
}

/// The low 8 bits of an answer: 0 where the offer was taken.
pub fn refusal(answer: u64) -> u64 {
    answer & 255
}

impl World {
    /// The machine as it is loaded: an image of the code, with every device present where `devices` says so.
    pub fn loaded(text: &[u16], devices: u16) -> World {
        let n = text.len() as u16;
        let mut image = vec![0; 512 * (1 + text.len().div_ceil(254))];
        assert_eq!(refusal(slices::write(1, n, devices, 0, text, &mut image)), 0, "the image is written");
        let mut w =
            World { code: vec![0; text.len()], common: vec![0; 2048], private: vec![0; 20480], state: vec![0; STATE] };
        let World { code, common, private, state } = &mut w;
        assert_eq!(refusal(slices::load(&image, code, common, private, state)), 0, "the image is loaded");
        w
    }

    pub fn running(&self) -> u16 {
        self.state[810]
    }

    pub fn fraction(&self) -> u16 {
        self.state[816]
    }

    pub fn created(&self) -> u16 {
        self.state[811]
    }

    pub fn made(&self) -> u16 {
        self.state[812]
    }

    /// Whether process 0 is of class 2, and another of class 2 is ready.
    pub fn is_before_others(&self) -> bool {
        self.state[13] == 2 && self.state[762] != 0
    }

    /// The code address of process 0.
    pub fn address(&self) -> usize {
        usize::from(self.state[0])
    }

    /// As it was, but for words of the stores that no round reads: the state, and the top of process 0's stack.
    pub fn restore(&mut self, saved: &World) {
        self.state.copy_from_slice(&saved.state);
        self.private[2032..2048].copy_from_slice(&saved.private[2032..2048]);
    }
}
