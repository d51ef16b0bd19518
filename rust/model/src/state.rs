//! The machine's state as the paper speaks of it.

use std::collections::VecDeque;

pub const PROCESSES: usize = 10;
pub const GATES: usize = 25;
pub const CELLS: usize = 8;
pub const HELD: usize = 8;
pub const DEVICES: usize = 5;
pub const CLASSES: usize = 3;
/// The class that the count serves.
pub const LOWEST: usize = 2;
/// The count at which the next selection is from class 2.
pub const DUE: u8 = 8;
pub const COMMON: usize = 2048;
pub const PART: usize = 2048;
pub const PRIVATE: usize = PROCESSES * PART;
/// One past the last address, and the ceiling outside a job.
pub const TOP: u16 = 4096;
pub const MAX_VARIABLES: u16 = 1024;
pub const MAX_LENGTH: u16 = 16_256;

pub type Queue = VecDeque<u8>;

/// What a job puts back at its end.
#[derive(Clone, Copy, Debug, Default, PartialEq, Eq)]
pub struct Saved {
    pub s: u16,
    pub b: u16,
    pub address: u16,
    pub p: u16,
}

#[derive(Clone, Debug, Default, PartialEq, Eq)]
pub struct Process {
    pub address: u16,
    pub line: u16,
    pub s: u16,
    pub b: u16,
    pub c: u16,
    pub in_job: bool,
    pub saved: Saved,
    /// The pending stop's reason, 0 for none.
    pub reason: u16,
    pub v: u16,
    pub slice: u8,
    pub class: u8,
    /// Gates in the order entered.
    pub held: Vec<u8>,
    pub ended: bool,
}

impl Process {
    pub fn new(address: u16, v: u16) -> Self {
        Process { address, v, s: TOP, b: TOP, c: TOP, class: 2, ..Process::default() }
    }

    /// L, the stack's floor.
    pub fn floor(&self) -> u32 {
        PART as u32 + u32::from(self.v)
    }
}

#[derive(Clone, Debug, Default, PartialEq, Eq)]
pub struct Gate {
    pub holder: Option<u8>,
    pub queue: Queue,
    pub cells: [Option<u8>; CELLS],
}

impl Gate {
    pub fn is_deserted(&self) -> bool {
        *self == Gate::default()
    }
}

/// A device at work, and for whom.
#[derive(Clone, Copy, Debug, PartialEq, Eq)]
pub struct Busy {
    pub process: u8,
    pub operation: u8,
    pub record: u16,
}

#[derive(Clone, Debug, PartialEq, Eq)]
pub struct State {
    /// The created processes.
    pub processes: Vec<Process>,
    pub gates: Vec<Gate>,
    pub made: usize,
    pub ready: [Queue; CLASSES],
    pub clock: Queue,
    pub bell: Queue,
    pub devices: [Option<Busy>; DEVICES],
    pub running: Option<u8>,
    /// Selections from class 0 or 1 while class 2 was not empty, since the last from class 2.
    pub count: u8,
    /// Whether the running process was selected by the count of 8.
    pub mark: bool,
    pub stop: Option<u8>,
    pub stop_line: u16,
    pub seconds: u16,
    pub fraction: u16,
    pub edition: u16,
    pub length: u16,
    pub present: u16,
}

impl State {
    pub fn fresh(length: u16, present: u16, variables: u16) -> Self {
        State {
            processes: vec![Process::new(0, variables)],
            gates: vec![Gate::default(); GATES],
            made: 0,
            ready: Default::default(),
            clock: Queue::new(),
            bell: Queue::new(),
            devices: [None; DEVICES],
            running: Some(0),
            count: 0,
            mark: false,
            stop: None,
            stop_line: 0,
            seconds: 0,
            fraction: 0,
            edition: 1,
            length,
            present,
        }
    }

    pub fn is_present(&self, device: usize) -> bool {
        self.present >> device & 1 == 1
    }
}

/// Whether the four words from `record` lie in one store.
pub fn is_whole(record: i32) -> bool {
    (0..=2044).contains(&record) || (2048..=4092).contains(&record)
}

/// The `count` words from `address` on, in the store that the address names for `process`.
pub fn part<'a>(common: &'a [u16], private: &'a [u16], process: u8, address: u16, count: usize) -> &'a [u16] {
    let address = usize::from(address);
    match address.checked_sub(COMMON) {
        None => &common[address..address + count],
        Some(place) => &private[usize::from(process) * PART + place..][..count],
    }
}
