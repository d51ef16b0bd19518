//! Jobs: how they begin and how they end.

use super::exec::{Fault, GATE, STACK};
use super::machine::{Ending, Machine};
use super::planted::Planted;
use super::state::{Saved, TOP};
use super::tally::{Group, JobEnd};

impl Machine<'_> {
    /// CALLPROG: the job's address.
    pub fn call_job(&mut self, r: usize, target: u16, p: u16, next: u16) -> Result<u16, Fault> {
        let holds = !self.state.processes[r].held.is_empty();
        if holds && self.is(Planted::CallProgOrder) {
            return Err(GATE);
        }
        self.need(r, u32::from(p))?;
        if holds {
            return Err(GATE);
        }
        let address = self.target(target)?;
        let process = &mut self.state.processes[r];
        process.saved = Saved { s: process.s, b: process.b, address: next, p };
        process.in_job = true;
        process.c = process.s;
        process.b = process.s;
        Ok(address)
    }

    /// The result goes to the process that began the job; without room for it
    /// the machine stops and the job stays as it is.
    pub fn end_job(&mut self, r: usize, result: u16, kind: JobEnd) -> Ending {
        let keeps = self.is(Planted::StopKept);
        let keeps_line = !self.is(Planted::JobLine);
        let unwinds = self.is(Planted::NoRoomUnwinds);
        let process = &mut self.state.processes[r];
        let no_room = u32::from(process.saved.s) <= process.floor();
        if no_room && !unwinds {
            self.tally.add(Group::JobEnd, JobEnd::NoRoom as usize);
            return self.stop(r, STACK);
        }
        self.tally.add(Group::JobEnd, kind as usize);
        process.s = process.saved.s;
        process.b = process.saved.b;
        process.c = TOP;
        process.address = process.saved.address;
        process.saved = Saved::default();
        process.in_job = false;
        if !keeps_line {
            process.line = 0;
        }
        if !keeps {
            process.reason = 0;
        }
        if no_room {
            return self.stop(r, STACK);
        }
        self.push(r, result);
        Ending::Onward
    }
}
