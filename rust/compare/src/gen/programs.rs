//! Concurrent programs that go on for long: processes with gates, cells,
//! clock, devices, bell, jobs and watchdogs.

use super::asm::*;
use super::{edgy, jobs};
use crate::rng::Rng;

pub struct Program {
    pub code: Vec<u16>,
    pub devices: u16,
    pub variables: u16,
}

/// Flags in the common store say which cells are filled.
const FLAGS: u16 = 0;
const COMMON_RECORDS: u16 = 400;
const CELLS: u16 = 8;

struct Writer<'r> {
    rng: &'r mut Rng,
    asm: Asm,
    gates: u16,
    processes: u16,
    procedures: Vec<(Label, u16)>,
    jobs: Vec<(Label, u16)>,
    /// How often, in a hundred, a statement is allowed to fault.
    wild: u32,
    variables: u16,
}

pub fn program(rng: &mut Rng) -> Program {
    let processes = rng.range(1, 9) as u16;
    let gates = rng.range(1, 6) as u16;
    let wild = rng.pick(&[0, 0, 1, 4]);
    let variables = rng.pick(&[8, 20, 60, 1000, 1024]);
    let devices = rng.pick(&[31, 31, 31, 30, 19, 0]);
    let mut writer = Writer {
        rng,
        asm: Asm::default(),
        gates,
        processes,
        procedures: Vec::new(),
        jobs: Vec::new(),
        wild,
        variables,
    };
    writer.write();
    Program { code: writer.asm.finish(), devices, variables }
}

impl Writer<'_> {
    fn write(&mut self) {
        let main = self.asm.label();
        self.asm.to(JUMP, main);
        for _ in 0..3 {
            self.procedure();
        }
        for _ in 0..4 {
            let p = self.rng.below(4) as u16;
            let label = jobs::body(self.rng, &mut self.asm, p);
            self.jobs.push((label, p));
        }
        let mut bodies = Vec::new();
        for _ in 0..self.rng.range(1, 3) {
            bodies.push(self.asm.here());
            self.process();
        }
        self.asm.place(main);
        for _ in 0..self.gates {
            self.asm.call(10);
            self.asm.call(7);
        }
        // A parent of class 0 goes on after each call 3, until the count is 8.
        let holding = self.rng.percent(30);
        if holding {
            self.asm.push(0);
            self.asm.call(6);
        }
        for _ in 0..self.processes {
            let body = self.rng.pick(&bodies);
            self.child(body);
        }
        if holding {
            self.asm.push(0);
            self.asm.call(7);
        }
        self.process();
    }

    fn child(&mut self, body: Label) {
        let p = self.rng.below(5) as u16;
        for _ in 0..p {
            let word = edgy(self.rng);
            self.asm.push(word);
        }
        self.asm.push(p);
        self.asm.push(self.variables);
        self.asm.to(PUSHCONST, body);
        self.asm.call(3);
    }

    /// A procedure that a process and a job may call.
    fn procedure(&mut self) {
        let p = self.rng.below(4) as u16;
        let label = self.asm.here();
        self.procedures.push((label, p));
        let near_limit = 2048 - self.variables - self.rng.below(24) as u16;
        let room = self.rng.pick(&[0, 1, 5, 5, near_limit]);
        let room = if self.rng.percent(85) { room.min(30) } else { room };
        self.asm.op(ENTER, &[room]);
        for _ in 0..self.rng.range(1, 3) {
            self.plain();
        }
        self.asm.op(EXIT, &[p]);
    }

    fn process(&mut self) {
        // Lets the parent create the others before this one begins.
        if self.rng.percent(40) {
            self.asm.call(0);
        }
        let top = self.asm.here();
        for _ in 0..self.rng.range(3, 9) {
            let line = self.rng.below(300) as u16;
            self.asm.op(NEWLINE, &[line]);
            self.statement(&[], 0);
        }
        if self.rng.percent(8) {
            self.asm.call(4);
        }
        self.asm.to(JUMP, top);
    }

    fn statement(&mut self, held: &[u16], depth: u32) {
        match self.rng.below(26) {
            0..=4 => self.plain(),
            5..=10 if depth < 3 && held.len() < usize::from(self.gates) => self.section(held, depth),
            11 => self.asm.call(0),
            12 => {
                self.asm.call(1);
                self.asm.op(POP, &[]);
            }
            13..=15 => self.request(None),
            16 => self.request(Some((0, 3))),
            17 | 18 => self.stop_job(),
            19..=22 if held.is_empty() => self.job(),
            23 if depth < 3 => self.branch(held, depth),
            24 if self.rng.percent(self.wild * 2) => self.asm.call(10),
            25 if self.rng.percent(self.wild * 5) => self.fatal(),
            _ => self.plain(),
        }
    }

    /// Without kernel calls, so that a job may do it.
    fn plain(&mut self) {
        let rng = &mut *self.rng;
        let value = if rng.percent(self.wild) { edgy(rng) } else { rng.range(-90, 90) as u16 };
        match rng.below(6) {
            0 => self.reckoning(value),
            1 => {
                self.asm.op(LOCALADDR, &[65_535]);
                self.asm.op(LOCALADDR, &[65_534]);
                self.asm.op(PUSHIND, &[]);
                self.asm.op(COPYWORD, &[]);
            }
            2 => self.cases(value),
            3 => {
                self.asm.push(2048);
                self.asm.push(rng.range(-2, 2) as u16);
                self.asm.op(INDEX, &[65_534, 2, rng.pick(&[0, 1, 2, 100])]);
                self.asm.op(POP, &[]);
            }
            4 if !self.procedures.is_empty() => {
                let (label, p) = rng.pick(&self.procedures);
                for _ in 0..p {
                    self.asm.push(value);
                }
                self.asm.to(CALL, label);
            }
            _ => self.asm.op(NEWLINE, &[rng.below(50) as u16]),
        }
    }

    fn reckoning(&mut self, value: u16) {
        let (rng, asm) = (&mut *self.rng, &mut self.asm);
        asm.push(value);
        asm.push(rng.pick(&[1, 2, 7, 65_535, 65_534]));
        asm.op(rng.pick(&[9, 10, 12, 13, 14, 15, 16, 17, 18, 19]), &[]);
        asm.op(POP, &[]);
        if rng.percent(20) {
            asm.push(5);
            asm.op(11, &[]);
            asm.op(NOT, &[]);
            asm.op(POP, &[]);
        }
    }

    /// A remainder has the dividend's sign: it and its negative lead to the same arm.
    fn cases(&mut self, value: u16) {
        let (rng, asm) = (&mut *self.rng, &mut self.asm);
        let arms = rng.range(1, 4) as u16;
        let least = 1_u16.wrapping_sub(arms);
        asm.push(value);
        asm.push(arms);
        asm.op(MOD, &[]);
        asm.op(RANGE, &[least, arms - 1]);
        let out = asm.label();
        let labels: Vec<Label> = (0..arms).map(|_| asm.label()).collect();
        asm.op(CASEJUMP, &[least, 2 * arms - 1]);
        labels[1..].iter().rev().chain(&labels).for_each(|&label| asm.target(label));
        for &label in &labels {
            asm.place(label);
            asm.op(NEWLINE, &[rng.below(100) as u16]);
            asm.to(JUMP, out);
        }
        asm.place(out);
    }

    /// A gate entered, used, and given up in one of the ways there are.
    fn section(&mut self, held: &[u16], depth: u32) {
        let gate = self.rng.below(u32::from(self.gates)) as u16;
        if held.contains(&gate) {
            return self.plain();
        }
        self.asm.push(gate);
        self.asm.call(6);
        let mut inner = held.to_vec();
        inner.push(gate);
        for _ in 0..self.rng.below(3) {
            self.statement(&inner, depth + 1);
        }
        self.give_up(gate);
    }

    /// By a delay where the cell is not filled, a continue, or a leave.
    fn give_up(&mut self, gate: u16) {
        let cell = self.rng.below(3) as u16;
        let flag = FLAGS + gate * CELLS + cell;
        match self.rng.below(5) {
            0 | 1 => {
                let filled = self.asm.label();
                self.asm.push(flag);
                self.asm.op(PUSHIND, &[]);
                self.asm.op(NOT, &[]);
                self.asm.to(FALSEJUMP, filled);
                self.asm.set(flag, 1);
                self.asm.push(gate);
                self.asm.push(cell);
                self.asm.call(8);
                self.asm.place(filled);
                self.asm.push(gate);
                self.asm.call(7);
            }
            2 | 3 => {
                self.asm.set(flag, 0);
                self.asm.push(gate);
                self.asm.push(cell);
                self.asm.call(9);
            }
            _ => {
                self.asm.push(gate);
                self.asm.call(7);
            }
        }
    }

    fn request(&mut self, fixed: Option<(u16, u16)>) {
        let rng = &mut *self.rng;
        let (device, operation) = fixed.unwrap_or((rng.below(5) as u16, rng.below(4) as u16));
        let record = match rng.percent(50) {
            true => 2048 + rng.below(u32::from(self.variables) - 4) as u16,
            false => COMMON_RECORDS + 4 * rng.below(12) as u16,
        };
        self.asm.set(record, operation);
        self.asm.push(device);
        self.asm.push(record);
        self.asm.call(11);
        self.asm.push(record + 2);
        self.asm.op(PUSHIND, &[]);
        self.asm.op(POP, &[]);
    }

    fn stop_job(&mut self) {
        let some = [self.rng.range(0, i32::from(self.processes) + 1) as u16];
        let all: Vec<u16> = (0..=self.processes).collect();
        let numbers = if self.rng.percent(50) { &all } else { &some[..] };
        for &number in numbers {
            let reason = self.rng.pick(&[16, 20, 100, 255, 15, 256]);
            self.asm.push(number);
            self.asm.push(reason);
            self.asm.call(5);
            self.asm.op(POP, &[]);
        }
    }

    fn job(&mut self) {
        let (label, p) = self.rng.pick(&self.jobs);
        for _ in 0..p {
            let word = edgy(self.rng);
            self.asm.push(word);
        }
        self.asm.to(CALLPROG, label);
        self.asm.op(p, &[]);
        for _ in 0..=p {
            self.asm.op(POP, &[]);
        }
    }

    fn branch(&mut self, held: &[u16], depth: u32) {
        let (other, out) = (self.asm.label(), self.asm.label());
        self.asm.push(COMMON_RECORDS + 1 + self.rng.below(40) as u16);
        self.asm.op(PUSHIND, &[]);
        self.asm.to(FALSEJUMP, other);
        self.statement(held, depth + 1);
        self.asm.to(JUMP, out);
        self.asm.place(other);
        self.statement(held, depth + 1);
        self.asm.place(out);
    }

    fn fatal(&mut self) {
        let word = edgy(self.rng);
        match self.rng.below(5) {
            0 => {
                self.asm.push(self.rng.below(8) as u16);
                self.asm.call(2);
            }
            1 => {
                self.asm.push(word);
                self.asm.call(self.rng.range(6, 9) as u16);
            }
            2 => {
                self.asm.push(word);
                self.asm.op(PUSHIND, &[]);
                self.asm.op(POP, &[]);
            }
            3 => self.asm.op(ENTER, &[word]),
            _ => self.asm.op(word, &[]),
        }
    }
}
