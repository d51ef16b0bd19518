//! A machine at work: its state with the lent stores, clock and events.

use super::planted::Planted;
use super::state::*;
use super::tally::{Group, MarkEnd, Tally};

/// How an instruction or a run ended.
#[derive(Clone, Copy, Debug, PartialEq, Eq)]
pub enum Ending {
    Onward,
    Idle,
    Started(u8),
    Stopped,
}

impl Ending {
    pub fn number(self) -> u64 {
        match self {
            Ending::Onward => 0,
            Ending::Idle => 1,
            Ending::Started(_) => 2,
            Ending::Stopped => 3,
        }
    }

    pub fn device(self) -> u64 {
        match self {
            Ending::Started(device) => u64::from(device),
            _ => 0,
        }
    }
}

pub struct Machine<'a> {
    pub state: State,
    pub code: &'a [u16],
    pub common: &'a mut [u16],
    pub private: &'a mut [u16],
    pub planted: Option<Planted>,
    pub tally: &'a mut Tally,
}

impl Machine<'_> {
    pub fn is(&self, planted: Planted) -> bool {
        cfg!(feature = "faults") && self.planted == Some(planted)
    }

    pub fn read(&self, process: usize, address: u16) -> u16 {
        let address = usize::from(address);
        match address.checked_sub(COMMON) {
            None => self.common[address],
            Some(place) => self.private[process * PART + place],
        }
    }

    pub fn store(&mut self, process: usize, address: u16, word: u16) {
        let address = usize::from(address);
        match address.checked_sub(COMMON) {
            None => self.common[address] = word,
            Some(place) => self.private[process * PART + place] = word,
        }
    }

    pub fn tick(&mut self) {
        let early = self.state.running.filter(|_| self.is(Planted::SliceBeforeClock));
        if let Some(running) = early {
            self.spend_slice(running);
        }
        self.state.fraction += 10;
        if self.state.fraction == 10_000 {
            self.state.fraction = 0;
            let last = if self.is(Planted::SecondsRange) { 32_768 } else { 32_767 };
            self.state.seconds = if self.state.seconds >= last { 0 } else { self.state.seconds + 1 };
            let mut waiters = std::mem::take(&mut self.state.clock);
            self.tally.add(Group::ClockWoken, waiters.len().min(3));
            if self.is(Planted::OneClockWaiter) && waiters.len() > 1 {
                self.state.clock = waiters.split_off(1);
            }
            for waiter in waiters {
                let process = &mut self.state.processes[usize::from(waiter)];
                if self.planted == Some(Planted::ClockClass) && process.class == 2 {
                    process.class = 1;
                }
                self.join(waiter);
            }
        }
        if let Some(running) = self.state.running.filter(|_| early.is_none()) {
            self.spend_slice(running);
        }
        self.select();
    }

    fn spend_slice(&mut self, running: u8) {
        let falls = !self.is(Planted::SliceKeepsClass);
        let waits = self.is(Planted::SliceWaits);
        let process = &mut self.state.processes[usize::from(running)];
        process.slice += 10;
        if process.slice < 200 {
            return;
        }
        process.slice = 0;
        if process.class == 1 && falls {
            process.class = 2;
            self.tally.add(Group::Moves, 1);
        }
        let class = usize::from(process.class);
        let rivals = if waits { &self.state.ready[..class] } else { &self.state.ready[..=class] };
        if rivals.iter().any(|queue| !queue.is_empty()) {
            self.tally.add(Group::SliceEnd, class);
            self.end_mark(MarkEnd::SliceToTail);
            self.state.running = None;
            self.join(running);
        } else {
            self.end_mark(MarkEnd::SliceRunsOn);
        }
    }

    pub fn ring(&mut self) {
        let waiters = std::mem::take(&mut self.state.bell);
        self.tally.add(Group::BellWoken, waiters.len().min(3));
        waiters.into_iter().for_each(|waiter| self.join(waiter));
        self.select();
    }

    /// The device is busy.
    pub fn finish(&mut self, device: usize, status: u16, arg: u16) {
        let Some(busy) = self.state.devices[device].take() else { return };
        let owner = usize::from(busy.process);
        let operation = match self.is(Planted::DoneOperationReread) {
            true => self.read(owner, busy.record),
            false => u16::from(busy.operation),
        };
        let part = match self.state.running {
            Some(running) if self.is(Planted::DoneIntoRunning) => usize::from(running),
            _ => owner,
        };
        self.store(part, busy.record + 1, status);
        if operation == 0 && (status == 0 || self.is(Planted::DoneArgument)) {
            self.store(part, busy.record + 2, arg);
            self.tally.add(Group::Moves, 2);
        }
        let process = &mut self.state.processes[owner];
        if process.held.is_empty() {
            process.class = 1;
        } else {
            self.tally.add(Group::Moves, 3);
        }
        self.join(busy.process);
        self.select();
    }

    /// Up to `budget` instructions: how that ended, and after how many.
    pub fn run(&mut self, budget: u32) -> (Ending, u32) {
        let mut count = 0;
        if self.is(Planted::RunIdleFirst) && self.state.running.is_none() {
            return (Ending::Idle, 0);
        }
        while count < budget {
            if count > 0 && self.is(Planted::RunMovesAddress) {
                self.skip();
                count += 1;
                continue;
            }
            match self.step() {
                Ending::Idle => return (Ending::Idle, count),
                Ending::Onward => count += 1,
                Ending::Started(_) if count + 1 == budget && self.is(Planted::BudgetOverStart) => count += 1,
                ending => {
                    let over = u32::from(ending == Ending::Stopped && self.is(Planted::RunCountsOver));
                    return (ending, count + 1 + over);
                }
            }
        }
        (Ending::Onward, count)
    }

    /// What a planted run does instead of its further steps.
    fn skip(&mut self) {
        if let Some(running) = self.state.running {
            let process = &mut self.state.processes[usize::from(running)];
            process.address = (process.address + 1).min(self.state.length);
        }
    }
}
