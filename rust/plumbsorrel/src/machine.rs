//! A machine with all that it is lent.

use crate::answer::{ran, taken, Ran, Refusal};
use crate::{slices, CODE, COMMON, PRIVATE, STATE};
use alloc::{boxed::Box, vec, vec::Vec};

/// Where the stop's number and line stand in the state.
const STOP: usize = 813;
const LINE: usize = 814;
/// Where the seconds stand.
const SECONDS: usize = 815;
/// The stop's number while the machine goes on.
const GOING: u16 = 10;

/// A loaded machine: its state, its code and both stores.
#[derive(Clone, PartialEq, Eq)]
pub struct Machine {
    state: [u16; STATE],
    code: Vec<u16>,
    common: Box<[u16]>,
    private: Box<[u16]>,
}

/// The four words of a device's record.
#[derive(Clone, Copy, Debug, PartialEq, Eq)]
pub struct Record {
    /// What the device is to do, 0 to 3.
    pub operation: u16,
    /// The status, 0 while the device is busy unless the program has changed it since.
    pub status: u16,
    /// The operation's argument.
    pub arg: u16,
    /// The unit.
    pub unit: u16,
}

/// Why a machine has stopped.
#[derive(Clone, Copy, Debug, PartialEq, Eq)]
pub struct Stop {
    /// The fault's number, or the one given to call 2.
    pub number: u16,
    /// The last line of the process that ran.
    pub line: u16,
}

impl Machine {
    /// A fresh machine with the image's code and both stores cleared. Refused with 1 to 5 where the image is damaged.
    pub fn load(image: &[u8]) -> Result<Machine, Refusal> {
        let mut code = vec![0; CODE];
        let mut common = vec![0; COMMON].into_boxed_slice();
        let mut private = vec![0; PRIVATE].into_boxed_slice();
        let mut state = [0; STATE];
        let length = taken(slices::load(image, &mut code, &mut common, &mut private, &mut state))?;
        code.truncate(length as usize);
        Ok(Machine { state, code, common, private })
    }

    /// Runs one instruction; on an idle machine none. Refused with 8.
    pub fn step(&mut self) -> Result<Ran, Refusal> {
        ran(slices::step(&self.code, &mut self.common, &mut self.private, &mut self.state))
    }

    /// Runs until `budget` instructions are done, nobody is ready, a device starts or the machine stops. Refused with 8.
    pub fn run(&mut self, budget: u32) -> Result<Ran, Refusal> {
        ran(slices::run(&self.code, budget, &mut self.common, &mut self.private, &mut self.state))
    }

    /// A thousandth of a second has passed. Refused with 8.
    pub fn tick(&mut self) -> Result<(), Refusal> {
        taken(slices::tick(&mut self.state)).map(drop)
    }

    /// The terminal's bell has rung. Refused with 8.
    pub fn bell(&mut self) -> Result<(), Refusal> {
        taken(slices::bell(&mut self.state)).map(drop)
    }

    /// The device has done its operation, with a status of 0 to 6; an input hands over `arg`. Refused with 8 and 9.
    pub fn done(&mut self, device: u16, status: u16, arg: u16) -> Result<(), Refusal> {
        taken(slices::done(device, status, arg, &mut self.common, &mut self.private, &mut self.state)).map(drop)
    }

    /// The record of a busy device. Refused with 9.
    pub fn record(&self, device: u16) -> Result<Record, Refusal> {
        let mut words = [0; 4];
        taken(slices::record(device, &self.common, &self.private, &self.state, &mut words))?;
        let [operation, status, arg, unit] = words;
        Ok(Record { operation, status, arg, unit })
    }

    /// Whether the state is sound: a loaded machine's is, and stays so.
    pub fn is_sound(&self) -> bool {
        slices::is_sound(&self.state) == 1
    }

    /// The stop, if the machine has stopped.
    pub fn stop(&self) -> Option<Stop> {
        (self.state[STOP] != GOING).then_some(Stop { number: self.state[STOP], line: self.state[LINE] })
    }

    /// The clock's seconds, 0 to 32,767.
    pub fn seconds(&self) -> u16 {
        self.state[SECONDS]
    }

    /// The state's words, laid out as `docs/ABI.md` says.
    pub fn state(&self) -> &[u16; STATE] {
        &self.state
    }

    /// The code.
    pub fn code(&self) -> &[u16] {
        &self.code
    }

    /// The common store.
    pub fn common(&self) -> &[u16] {
        &self.common
    }

    /// The private store.
    pub fn private(&self) -> &[u16] {
        &self.private
    }
}
