//! Answers, taken out of the numbers of the C interface.

use core::fmt;

/// Why nothing was done: a row of document 01's table. Nothing has changed.
#[derive(Clone, Copy, Debug, PartialEq, Eq)]
pub enum Refusal {
    /// 1: the image's length is 0 or not a multiple of 512.
    Length,
    /// 2: the check or the number of this block is wrong.
    Block(u32),
    /// 3: a header field is out of range, or a word after it is not zero.
    Header,
    /// 4: the image has another number of blocks than its code needs.
    Count,
    /// 5: a word after the code is not zero.
    Fill,
    /// 6: a lent store or the code has the wrong length.
    Lent,
    /// 7: the state is not sound.
    Unsound,
    /// 8: the machine has stopped.
    Stopped,
    /// 9: a status above 6, no such device, or a device that is not busy.
    Device,
    /// 10: what is to be written to is too short.
    Short,
}

impl Refusal {
    /// Its number in document 01's table.
    pub fn number(self) -> u8 {
        match self {
            Refusal::Length => 1,
            Refusal::Block(_) => 2,
            Refusal::Header => 3,
            Refusal::Count => 4,
            Refusal::Fill => 5,
            Refusal::Lent => 6,
            Refusal::Unsound => 7,
            Refusal::Stopped => 8,
            Refusal::Device => 9,
            Refusal::Short => 10,
        }
    }
}

impl fmt::Display for Refusal {
    fn fmt(&self, f: &mut fmt::Formatter) -> fmt::Result {
        let why = match self {
            Refusal::Length => "the image is empty or no whole number of blocks",
            Refusal::Block(block) => return write!(f, "refused with 2: block {block} is damaged"),
            Refusal::Header => "the header is out of range",
            Refusal::Count => "the image has the wrong number of blocks",
            Refusal::Fill => "there is something after the code",
            Refusal::Lent => "a store or the code has the wrong length",
            Refusal::Unsound => "the state is not sound",
            Refusal::Stopped => "the machine has stopped",
            Refusal::Device => "the device is not there or not busy, or the status is above 6",
            Refusal::Short => "there is too little room for the result",
        };
        write!(f, "refused with {}: {why}", self.number())
    }
}

impl core::error::Error for Refusal {}

/// How a step or a run ended.
#[derive(Clone, Copy, Debug, PartialEq, Eq)]
pub enum End {
    /// The budget is used up; the machine can go on.
    Budget,
    /// Nobody is ready: only the clock, the bell or a device can wake a process.
    Idle,
    /// This device has started, and waits to be served.
    Started(u8),
    /// The machine has stopped.
    Stopped,
}

/// What a step or a run did.
#[derive(Clone, Copy, Debug, PartialEq, Eq)]
pub struct Ran {
    /// How it ended.
    pub end: End,
    /// The instructions that it ran.
    pub count: u32,
}

/// What stands above the low 8 bits of a number that says taken.
pub fn taken(number: u64) -> Result<u64, Refusal> {
    let rest = number >> 8;
    match number & 0xFF {
        0 => Ok(rest),
        1 => Err(Refusal::Length),
        2 => Err(Refusal::Block(rest as u32)),
        3 => Err(Refusal::Header),
        4 => Err(Refusal::Count),
        5 => Err(Refusal::Fill),
        6 => Err(Refusal::Lent),
        7 => Err(Refusal::Unsound),
        8 => Err(Refusal::Stopped),
        9 => Err(Refusal::Device),
        10 => Err(Refusal::Short),
        other => unreachable!("the library answers no {other}"),
    }
}

/// The end and the count in the number of a step or a run.
pub fn ran(number: u64) -> Result<Ran, Refusal> {
    let rest = taken(number)?;
    let end = match rest & 0xFF {
        0 => End::Budget,
        1 => End::Idle,
        2 => End::Started((rest >> 8) as u8),
        3 => End::Stopped,
        other => unreachable!("no run ends with {other}"),
    };
    Ok(Ran { end, count: (rest >> 24) as u32 })
}

#[cfg(test)]
mod tests {
    use super::*;

    #[test]
    fn numbers_are_taken_apart() {
        assert_eq!(ran(0), Ok(Ran { end: End::Budget, count: 0 }));
        assert_eq!(ran(256 + 7 * 4_294_967_296), Ok(Ran { end: End::Idle, count: 7 }));
        assert_eq!(ran(2 * 256 + 4 * 65_536 + 4_294_967_296), Ok(Ran { end: End::Started(4), count: 1 }));
        assert_eq!(ran(3 * 256 + 4_294_967_295 * 4_294_967_296), Ok(Ran { end: End::Stopped, count: u32::MAX }));
        assert_eq!(taken(1024 * 256), Ok(1024));
        assert_eq!(taken(2 + 65_536 * 256), Err(Refusal::Block(65_536)));
    }

    #[test]
    fn every_refusal_has_its_number() {
        for number in 1..=10 {
            assert_eq!(taken(number).map_err(Refusal::number), Err(number as u8));
        }
    }
}
