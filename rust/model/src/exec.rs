//! Instructions 0 to 28. Every fault is found before anything changes.

use super::machine::{Ending, Machine};
use super::planted::Planted;
use super::state::*;
use super::tally::{Group, JobEnd};

pub type Fault = u8;

pub const OVERFLOW: Fault = 1;
pub const POINTER: Fault = 2;
pub const RANGE: Fault = 3;
pub const STACK: Fault = 6;
pub const CODE: Fault = 7;
pub const GATE: Fault = 8;
pub const LIMIT: Fault = 9;

pub const FALSEJUMP: u16 = 21;
pub const CASEJUMP: u16 = 22;
pub const CALLPROG: u16 = 26;
pub const EXITPROG: u16 = 27;
pub const KTRAP: u16 = 28;
pub const LAST_CODE: u16 = KTRAP;

/// Arguments that follow each code word, CASEJUMP's targets aside.
pub const ARGUMENTS: [usize; 29] =
    [1, 1, 0, 0, 1, 0, 3, 2, 0, 0, 0, 0, 0, 0, 0, 0, 0, 0, 0, 0, 1, 1, 2, 1, 1, 1, 2, 0, 1];

/// What an instruction without a fault comes to.
pub enum Effect {
    Onward,
    Started(u8),
    Stop(u8),
    JobEnds(u16, JobEnd),
}

pub fn signed(word: u16) -> i32 {
    i32::from(word as i16)
}

fn fitting(value: i32) -> Result<u16, Fault> {
    i16::try_from(value).map(|word| word as u16).map_err(|_| OVERFLOW)
}

/// The words that belong to the instruction `op` at `at`.
fn arguments(code: &[u16], at: usize, op: u16) -> Result<&[u16], Fault> {
    let mut count = *ARGUMENTS.get(usize::from(op)).ok_or(CODE)?;
    if op == CASEJUMP {
        count += usize::from(*code.get(at + 2).ok_or(CODE)?);
    }
    code.get(at + 1..at + 1 + count).ok_or(CODE)
}

/// Whether the instruction may stand in a job, or outside.
fn has_its_form(op: u16, in_job: bool) -> bool {
    match op {
        CALLPROG | KTRAP => !in_job,
        EXITPROG => in_job,
        _ => true,
    }
}

impl Machine<'_> {
    pub fn step(&mut self) -> Ending {
        let Some(running) = self.state.running else { return Ending::Idle };
        let r = usize::from(running);
        let ending = match self.instruction(r) {
            Ok(Effect::Onward) => Ending::Onward,
            Ok(Effect::Started(device)) => Ending::Started(device),
            Ok(Effect::Stop(number)) => self.stop(r, number),
            Ok(Effect::JobEnds(result, kind)) => self.end_job(r, result, kind),
            Err(fault) if self.state.processes[r].in_job => {
                self.tally.add(Group::JobFault, usize::from(fault));
                let reason = self.state.processes[r].reason;
                let result = match reason != 0 && self.is(Planted::FaultAnswersReason) {
                    true => reason,
                    false => u16::from(fault),
                };
                let kind = if reason == 0 { JobEnd::Fault } else { JobEnd::FaultWithStop };
                self.end_job(r, result, kind)
            }
            Err(fault) => {
                self.tally.add(Group::Fault, usize::from(fault));
                self.stop(r, fault)
            }
        };
        if ending != Ending::Stopped {
            self.select();
        }
        ending
    }

    pub fn stop(&mut self, r: usize, number: u8) -> Ending {
        self.tally.add(Group::Stop, usize::from(number));
        self.state.stop = Some(number);
        self.state.stop_line = self.state.processes[r].line;
        Ending::Stopped
    }

    /// At least `count` words stand on the stack.
    pub fn need(&self, r: usize, count: u32) -> Result<(), Fault> {
        let process = &self.state.processes[r];
        let bottom = if self.is(Planted::StackToCeiling) { process.c } else { process.b };
        if u32::from(bottom) < u32::from(process.s) + count {
            Err(CODE)
        } else {
            Ok(())
        }
    }

    /// There is room for `count` words more.
    pub fn room(&self, r: usize, count: u32) -> Result<(), Fault> {
        let process = &self.state.processes[r];
        if u32::from(process.s) < process.floor() + count {
            Err(STACK)
        } else {
            Ok(())
        }
    }

    /// The stack's word at `depth`, 0 for its top.
    pub fn top(&self, r: usize, depth: u16) -> u16 {
        self.read(r, self.state.processes[r].s + depth)
    }

    pub fn push(&mut self, r: usize, word: u16) {
        self.state.processes[r].s -= 1;
        self.store(r, self.state.processes[r].s, word);
    }

    pub fn drop_words(&mut self, r: usize, count: u16) {
        self.state.processes[r].s += count;
    }

    fn replace(&mut self, r: usize, popped: u16, word: u16) {
        self.drop_words(r, popped);
        self.push(r, word);
    }

    pub fn target(&self, target: u16) -> Result<u16, Fault> {
        if usize::from(target) < self.code.len() {
            Ok(target)
        } else {
            Err(CODE)
        }
    }

    /// The address in `word`, if the process may use it.
    fn pointer(&self, r: usize, word: u16) -> Result<u16, Fault> {
        let process = &self.state.processes[r];
        let region = if process.in_job {
            let words = if self.is(Planted::JobRegion) { 0 } else { i32::from(process.saved.p) };
            process.floor() as i32..i32::from(process.c) + words
        } else {
            0..i32::from(TOP)
        };
        if region.contains(&signed(word)) {
            Ok(word)
        } else {
            Err(POINTER)
        }
    }

    fn instruction(&mut self, r: usize) -> Result<Effect, Fault> {
        let code = self.code;
        let process = &self.state.processes[r];
        let (at, in_job, reason) = (usize::from(process.address), process.in_job, process.reason);
        let Some(&op) = code.get(at) else { return Err(CODE) };
        let stopped = op == FALSEJUMP && reason != 0;
        let stopped_answer = if self.is(Planted::StoppedJobAnswersZero) { 0 } else { reason };
        if stopped && !self.is(Planted::FalseJumpLate) {
            return Ok(Effect::JobEnds(stopped_answer, JobEnd::Stopped));
        }
        let args = arguments(code, at, op)?;
        if !has_its_form(op, in_job) {
            return Err(CODE);
        }
        // At most n, which a word holds.
        let next = (at + 1 + args.len()) as u16;
        let effect = match op {
            0..=8 => self.data(r, op, args, next)?,
            9..=19 => self.arithmetic(r, op, next)?,
            FALSEJUMP if stopped => {
                self.need(r, 1)?;
                if self.top(r, 0) == 0 {
                    self.target(args[0])?;
                }
                Effect::JobEnds(stopped_answer, JobEnd::Stopped)
            }
            EXITPROG => {
                let kind = if reason == 0 { JobEnd::Exit } else { JobEnd::ExitWithStop };
                Effect::JobEnds(reason, kind)
            }
            KTRAP => self.kernel(r, args[0], next)?,
            _ => self.transfer(r, op, args, next)?,
        };
        self.tally.add(Group::Code, usize::from(op));
        Ok(effect)
    }

    fn onward(&mut self, r: usize, next: u16) -> Result<Effect, Fault> {
        self.state.processes[r].address = next;
        Ok(Effect::Onward)
    }

    fn data(&mut self, r: usize, op: u16, args: &[u16], next: u16) -> Result<Effect, Fault> {
        match op {
            0 => self.state.processes[r].line = args[0],
            1 => {
                self.room(r, 1)?;
                self.push(r, args[0]);
            }
            2 => {
                self.need(r, 1)?;
                let address = self.pointer(r, self.top(r, 0))?;
                self.replace(r, 1, self.read(r, address));
            }
            3 => self.copy_word(r)?,
            4 => {
                let address = fitting(i32::from(self.state.processes[r].b) + signed(args[0]))?;
                self.room(r, 1)?;
                self.push(r, address);
            }
            5 => {
                self.need(r, 1)?;
                self.drop_words(r, 1);
            }
            6 => {
                self.need(r, 2)?;
                let address = self.indexed(r, args)?;
                self.replace(r, 2, address);
            }
            7 => {
                self.need(r, 1)?;
                if !(signed(args[0])..=signed(args[1])).contains(&signed(self.top(r, 0))) {
                    return Err(RANGE);
                }
            }
            _ => {
                self.need(r, 1)?;
                self.replace(r, 1, u16::from(self.top(r, 0) == 0));
            }
        }
        self.onward(r, next)
    }

    fn copy_word(&mut self, r: usize) -> Result<(), Fault> {
        self.need(r, 2)?;
        let address = self.pointer(r, self.top(r, 1))?;
        let value = self.top(r, 0);
        self.drop_words(r, 2);
        self.store(r, address, value);
        Ok(())
    }

    fn indexed(&self, r: usize, args: &[u16]) -> Result<u16, Fault> {
        let (index, base) = (signed(self.top(r, 0)), signed(self.top(r, 1)));
        let (min, max) = (signed(args[0]), signed(args[1]));
        let outside = !(min..=max).contains(&index);
        let mut address = i64::from(base) + i64::from(index - min) * i64::from(args[2]);
        if self.is(Planted::IndexWraps) {
            address = i64::from(address as i16);
        }
        if outside && !self.is(Planted::IndexOrder) {
            return Err(RANGE);
        }
        if !(0..i64::from(TOP)).contains(&address) {
            return Err(POINTER);
        }
        if outside {
            Err(RANGE)
        } else {
            Ok(address as u16)
        }
    }

    fn arithmetic(&mut self, r: usize, op: u16, next: u16) -> Result<Effect, Fault> {
        if op == 11 {
            self.need(r, 1)?;
            let negated = fitting(-signed(self.top(r, 0)))?;
            self.replace(r, 1, negated);
            return self.onward(r, next);
        }
        self.need(r, 2)?;
        let (left, right) = (signed(self.top(r, 1)), signed(self.top(r, 0)));
        if right == 0 && (op == 15 || op == 16) {
            return Err(OVERFLOW);
        }
        let result = match op {
            9 => left & right,
            10 => left | right,
            12 => left + right,
            13 => left - right,
            14 => left * right,
            15 if self.is(Planted::DivDown) => (f64::from(left) / f64::from(right)).floor() as i32,
            15 => left / right,
            16 if self.is(Planted::ModNeverNegative) => left.rem_euclid(right),
            16 => left % right,
            17 => i32::from(left < right),
            18 => i32::from(left == right),
            _ => i32::from(left > right),
        };
        let result = fitting(result)?;
        self.replace(r, 2, result);
        self.onward(r, next)
    }

    fn transfer(&mut self, r: usize, op: u16, args: &[u16], next: u16) -> Result<Effect, Fault> {
        let address = match op {
            20 => self.target(args[0])?,
            FALSEJUMP => {
                self.need(r, 1)?;
                if self.is(Planted::UntakenTarget) {
                    self.target(args[0])?;
                }
                let address = if self.top(r, 0) == 0 { self.target(args[0])? } else { next };
                self.drop_words(r, 1);
                address
            }
            CASEJUMP => {
                self.need(r, 1)?;
                let place = self.case(signed(self.top(r, 0)), signed(args[0]), args[1])?;
                let address = self.target(args[2 + place])?;
                self.drop_words(r, 1);
                address
            }
            23 => {
                if self.is(Planted::CallOrder) {
                    self.room(r, 1)?;
                }
                let address = self.target(args[0])?;
                self.room(r, 1)?;
                self.push(r, next);
                address
            }
            24 => {
                self.room(r, 1 + u32::from(args[0]))?;
                self.push(r, self.state.processes[r].b);
                self.state.processes[r].b = self.state.processes[r].s;
                (0..args[0]).for_each(|_| self.push(r, 0));
                next
            }
            25 => self.exit(r, args[0])?,
            _ => self.call_job(r, args[0], args[1], next)?,
        };
        self.onward(r, address)
    }

    /// The place among CASEJUMP's targets.
    fn case(&self, value: i32, min: i32, count: u16) -> Result<usize, Fault> {
        let end = min + i32::from(count);
        if self.is(Planted::CaseWraps) && end > 32_768 && value >= min {
            return Err(RANGE);
        }
        if (min..end).contains(&value) {
            Ok((value - min) as usize)
        } else {
            Err(RANGE)
        }
    }

    fn exit(&mut self, r: usize, p: u16) -> Result<u16, Fault> {
        let Process { s, b, c, .. } = self.state.processes[r];
        let after = u32::from(b) + 2 + u32::from(p);
        if !(s <= b && after <= u32::from(c)) {
            return Err(CODE);
        }
        let (old_b, back) = (self.read(r, b), self.read(r, b + 1));
        let fits = (after..=u32::from(c)).contains(&u32::from(old_b));
        if !fits && !self.is(Planted::ExitOldB) {
            return Err(CODE);
        }
        let address = self.target(back)?;
        let process = &mut self.state.processes[r];
        process.s = after as u16;
        process.b = old_b;
        Ok(address)
    }
}
