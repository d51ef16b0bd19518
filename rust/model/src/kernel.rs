//! Kernel calls 0 to 11.

use super::exec::{signed, Effect, Fault, CODE, GATE, LIMIT, POINTER, RANGE};
use super::machine::Machine;
use super::planted::Planted;
use super::state::*;
use super::tally::{GateMove, Group, MarkEnd, Request};

const CALLS: u16 = 12;

impl Machine<'_> {
    pub fn kernel(&mut self, r: usize, call: u16, next: u16) -> Result<Effect, Fault> {
        if call >= CALLS {
            return Err(CODE);
        }
        let effect = match call {
            0 => {
                self.state.clock.push_back(r as u8);
                self.wait(r, MarkEnd::Clock);
                Effect::Onward
            }
            1 => {
                self.room(r, 1)?;
                self.push(r, self.state.seconds);
                Effect::Onward
            }
            // Nothing else changes: not the address, nor the word on the stack.
            2 => {
                let stop = self.asked_stop(r)?;
                self.tally.add(Group::Call, 2);
                return Ok(stop);
            }
            3 => self.new_process(r)?,
            4 => self.end(r)?,
            5 => self.stop_job(r)?,
            6 => self.enter(r)?,
            7 => self.leave(r)?,
            8 => self.delay(r)?,
            9 => self.continue_(r)?,
            10 => self.new_gate(r)?,
            _ => self.request(r)?,
        };
        self.state.processes[r].address = next;
        self.tally.add(Group::Call, usize::from(call));
        self.keep_mark(call);
        Ok(effect)
    }

    /// A mark that the call has not ended stays.
    fn keep_mark(&mut self, call: u16) {
        if !self.state.mark {
            return;
        }
        self.tally.add(Group::MarkKept, usize::from(call));
        let lost = match call {
            6 => self.is(Planted::EnterUnmarks),
            7 => self.is(Planted::LeaveUnmarks),
            9 => self.is(Planted::ContinueUnmarks),
            10 => self.is(Planted::NewGateUnmarks),
            _ => false,
        };
        self.state.mark = !lost;
    }

    /// The running process `r` gives up the processor.
    fn wait(&mut self, r: usize, how: MarkEnd) {
        self.end_mark(how);
        self.state.running = None;
        if self.is(Planted::SliceReset) {
            self.state.processes[r].slice = 0;
        }
    }

    fn end(&mut self, r: usize) -> Result<Effect, Fault> {
        if !self.state.processes[r].held.is_empty() {
            return Err(GATE);
        }
        self.state.processes[r].ended = true;
        if self.is(Planted::EndedClass) {
            self.state.processes[r].class = 2;
        }
        self.wait(r, MarkEnd::End);
        Ok(Effect::Onward)
    }

    fn asked_stop(&mut self, r: usize) -> Result<Effect, Fault> {
        self.need(r, 1)?;
        let number = self.top(r, 0);
        if number > 6 {
            return Err(CODE);
        }
        if self.is(Planted::Call2Pops) {
            self.drop_words(r, 1);
        }
        Ok(Effect::Stop(number as u8))
    }

    fn new_process(&mut self, r: usize) -> Result<Effect, Fault> {
        self.need(r, 3)?;
        let child = self.state.processes.len();
        if r != 0 || child == PROCESSES {
            return Err(LIMIT);
        }
        let (t, v, p) = (self.top(r, 0), self.top(r, 1), self.top(r, 2));
        if !(0..=i32::from(MAX_VARIABLES)).contains(&signed(v)) || !(0..=signed(v)).contains(&signed(p)) {
            return Err(RANGE);
        }
        self.need(r, 3 + u32::from(p))?;
        let t = self.target(t)?;

        let part = child * PART;
        if !self.is(Planted::Call3Uncleared) {
            self.private[part..part + PART].fill(0);
        }
        for place in 0..p {
            let depth = if self.is(Planted::Call3Reversed) { place } else { p - 1 - place };
            self.private[part + usize::from(place)] = self.top(r, 3 + depth);
        }
        self.drop_words(r, 3 + p);
        self.state.processes.push(Process::new(t, v));
        self.give_way(r as u8, child as u8);
        Ok(Effect::Onward)
    }

    /// The parent goes to the tail of its class, the child to that of class 2; the selection follows the instruction.
    fn give_way(&mut self, parent: u8, child: u8) {
        let others = self.state.ready.iter().any(|queue| !queue.is_empty());
        self.tally.add(Group::Moves, if others { 4 } else { 5 });
        self.end_mark(MarkEnd::NewProcess);
        if !self.is(Planted::ParentStays) {
            self.state.running = None;
            self.join(parent);
        }
        if self.is(Planted::ChildFirst) && self.state.ready[..LOWEST].iter().all(Queue::is_empty) {
            self.state.running = Some(child);
        } else {
            self.join(child);
        }
    }

    fn stop_job(&mut self, r: usize) -> Result<Effect, Fault> {
        self.need(r, 2)?;
        let (reason, number) = (self.top(r, 0), usize::from(self.top(r, 1)));
        let early = self.is(Planted::StopJobOrder);
        let answer = match self.state.processes.get_mut(number) {
            None => 1,
            Some(process) if !process.in_job => 2,
            Some(process) if early && process.reason != 0 => 4,
            Some(_) if !(16..=255).contains(&reason) => 3,
            Some(process) if process.reason != 0 => 4,
            Some(process) => {
                process.reason = reason;
                0
            }
        };
        self.tally.add(Group::StopJob, usize::from(answer));
        self.drop_words(r, 2);
        self.push(r, answer);
        Ok(Effect::Onward)
    }

    /// The made gate of that number.
    fn gate(&self, number: u16) -> Result<usize, Fault> {
        let number = usize::from(number);
        if number < self.state.made {
            Ok(number)
        } else {
            Err(GATE)
        }
    }

    /// The gate, if it is the latest entered of those that `r` holds.
    fn latest(&self, r: usize, number: u16) -> Result<usize, Fault> {
        let gate = self.gate(number)?;
        let latest = self.state.processes[r].held.last();
        if latest.is_some_and(|&held| usize::from(held) == gate) {
            Ok(gate)
        } else {
            Err(GATE)
        }
    }

    fn receive(&mut self, process: u8, gate: usize) {
        self.state.gates[gate].holder = Some(process);
        let oldest = self.is(Planted::ReceivedFirst);
        let process = &mut self.state.processes[usize::from(process)];
        let place = if oldest { 0 } else { process.held.len() };
        process.held.insert(place, gate as u8);
        process.class = 0;
    }

    /// `r` is out of its latest gate, which has yet to go to somebody.
    fn give_up(&mut self, r: usize, last_class: u8) {
        let process = &mut self.state.processes[r];
        process.held.pop();
        if process.held.is_empty() {
            process.class = last_class;
        }
    }

    /// The first waiter holds the gate, else it opens.
    fn pass_on(&mut self, gate: usize) {
        if self.is(Planted::GateOpened) {
            self.state.gates[gate].holder = None;
            return;
        }
        let queue = &mut self.state.gates[gate].queue;
        let next = if self.planted == Some(Planted::LastWaiterHolds) { queue.pop_back() } else { queue.pop_front() };
        match next {
            Some(waiter) => {
                self.tally.add(Group::Gate, GateMove::PassedOn as usize);
                self.receive(waiter, gate);
                self.join(waiter);
            }
            None => {
                self.tally.add(Group::Gate, GateMove::Opened as usize);
                self.state.gates[gate].holder = None;
            }
        }
    }

    fn enter(&mut self, r: usize) -> Result<Effect, Fault> {
        self.need(r, 1)?;
        let gate = self.gate(self.top(r, 0))?;
        let held = &self.state.processes[r].held;
        if held.contains(&(gate as u8)) || held.len() == HELD {
            return Err(GATE);
        }
        self.drop_words(r, 1);
        if self.state.gates[gate].holder.is_none() {
            self.tally.add(Group::Gate, GateMove::Entered as usize);
            self.receive(r as u8, gate);
        } else {
            self.tally.add(Group::Gate, GateMove::Waited as usize);
            let place = if self.is(Planted::WaitsFirst) { 0 } else { self.state.gates[gate].queue.len() };
            self.state.gates[gate].queue.insert(place, r as u8);
            self.wait(r, MarkEnd::Gate);
        }
        Ok(Effect::Onward)
    }

    fn leave(&mut self, r: usize) -> Result<Effect, Fault> {
        self.need(r, 1)?;
        let gate = self.latest(r, self.top(r, 0))?;
        self.drop_words(r, 1);
        self.give_up(r, if self.is(Planted::LeaveKeepsClass) { 1 } else { 2 });
        self.pass_on(gate);
        Ok(Effect::Onward)
    }

    fn cell(&self, number: u16) -> Result<usize, Fault> {
        let number = usize::from(number);
        if number < CELLS {
            Ok(number)
        } else {
            Err(GATE)
        }
    }

    fn delay(&mut self, r: usize) -> Result<Effect, Fault> {
        self.need(r, 2)?;
        let gate = self.latest(r, self.top(r, 1))?;
        let cell = self.cell(self.top(r, 0))?;
        if self.state.gates[gate].cells[cell].is_some() && !self.is(Planted::DelayReplaces) {
            return Err(GATE);
        }
        self.drop_words(r, 2);
        self.state.gates[gate].cells[cell] = Some(r as u8);
        self.wait(r, MarkEnd::Delay);
        self.give_up(r, if self.is(Planted::DelayKeepsClass) { 0 } else { 2 });
        self.pass_on(gate);
        Ok(Effect::Onward)
    }

    fn continue_(&mut self, r: usize) -> Result<Effect, Fault> {
        self.need(r, 2)?;
        let gate = self.latest(r, self.top(r, 1))?;
        let cell = self.cell(self.top(r, 0))?;
        self.drop_words(r, 2);
        self.give_up(r, 2);
        match self.state.gates[gate].cells[cell].take() {
            Some(delayed) if self.is(Planted::ContinuedQueues) => {
                self.state.gates[gate].queue.push_back(delayed);
                self.pass_on(gate);
            }
            Some(delayed) => {
                self.tally.add(Group::Gate, GateMove::Continued as usize);
                self.receive(delayed, gate);
                self.join(delayed);
            }
            None => self.pass_on(gate),
        }
        Ok(Effect::Onward)
    }

    fn new_gate(&mut self, r: usize) -> Result<Effect, Fault> {
        let gate = self.state.made;
        let full = self.state.processes[r].held.len() == HELD;
        if full && self.is(Planted::NewGateOrder) {
            return Err(GATE);
        }
        if gate == GATES {
            return Err(LIMIT);
        }
        if full {
            return Err(GATE);
        }
        self.room(r, 1)?;
        self.state.made += 1;
        self.receive(r as u8, gate);
        self.push(r, gate as u16);
        Ok(Effect::Onward)
    }

    fn request(&mut self, r: usize) -> Result<Effect, Fault> {
        self.need(r, 2)?;
        let (record, device) = (self.top(r, 0), usize::from(self.top(r, 1)));
        if device >= DEVICES && self.is(Planted::RequestOrder) {
            return Err(RANGE);
        }
        let straddles = self.is(Planted::RecordStraddles) && (2045..2048).contains(&record);
        if !is_whole(signed(record)) && !straddles {
            return Err(POINTER);
        }
        let operation = self.read(r, record);
        if device >= DEVICES || operation > 3 {
            return Err(RANGE);
        }
        self.drop_words(r, 2);
        let present = self.state.is_present(device);
        let busy = self.state.devices[device].is_some();
        let reachable = present || self.is(Planted::AbsentBell);
        let rings = device == 0 && operation == 3 && reachable && !(busy && self.is(Planted::BellBusy));
        if rings {
            self.tally.add(Group::Request, Request::Bell as usize + usize::from(busy));
            self.store(r, record + 1, 0);
            self.state.bell.push_back(r as u8);
            self.wait(r, MarkEnd::Bell);
            return Ok(if self.is(Planted::BellStarts) { Effect::Started(0) } else { Effect::Onward });
        }
        if !present || busy {
            let kind = if present { Request::Busy } else { Request::Absent };
            self.tally.add(Group::Request, kind as usize);
            self.store(r, record + 1, 3);
            return Ok(Effect::Onward);
        }
        self.tally.add(Group::Started, device * 4 + usize::from(operation));
        self.store(r, record + 1, 0);
        self.state.devices[device] = Some(Busy { process: r as u8, operation: operation as u8, record });
        self.wait(r, MarkEnd::Device);
        Ok(Effect::Started(device as u8))
    }
}
