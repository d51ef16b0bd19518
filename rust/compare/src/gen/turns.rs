//! Machines on which one selection follows another: all processes are ready, some hold a gate, and each goes round in
//! a routine of its own.

use super::asm::*;
use crate::rng::Rng;
use model::state::*;

pub struct Turns {
    pub code: Vec<u16>,
    pub state: State,
    /// How many offers it is worth.
    pub offers: u32,
    /// How often, in a hundred, one of them ends the running process's slice.
    pub hurry: u32,
}

const RECORDS: u16 = 400;
/// A gate that nobody holds at the start.
const OPEN_GATE: u16 = 10;

/// A routine that process `me` goes round in; with `gate`, it holds that one at its start.
fn routine(rng: &mut Rng, asm: &mut Asm, me: u16, gate: Option<u16>, children: u16) {
    match (gate, rng.below(10)) {
        (Some(gate), kind @ 0..=3) => give_up(rng, asm, gate, kind),
        (None, 0..=2) => visit(rng, asm, me),
        (_, 4) => asm.call(0),
        (_, 5 | 6) => request(rng, asm, me),
        (None, 7) => {
            asm.call(10);
            asm.call(7);
        }
        (None, 8) if me != 0 => asm.call(4),
        (_, 7 | 8) if me == 0 => (0..children).for_each(|_| child(asm)),
        _ => asm.op(NEWLINE, &[me]),
    }
}

/// The process's own gate given up, and entered again.
fn give_up(rng: &mut Rng, asm: &mut Asm, gate: u16, kind: u32) {
    asm.push(gate);
    if kind > 1 {
        asm.push(rng.below(8) as u16);
    }
    asm.call(if kind > 1 { 9 } else { 7 });
    asm.push(gate);
    asm.call(6);
}

/// Some gate entered, and left; or a delay in a cell that no other uses.
fn visit(rng: &mut Rng, asm: &mut Asm, me: u16) {
    let gate = rng.range(0, i32::from(OPEN_GATE)) as u16;
    asm.push(gate);
    asm.call(6);
    if me < 8 && rng.percent(25) {
        asm.push(gate);
        asm.push(me);
        asm.call(8);
    }
    asm.push(gate);
    asm.call(7);
}

/// A device or the bell.
fn request(rng: &mut Rng, asm: &mut Asm, me: u16) {
    let record = RECORDS + 4 * me;
    asm.set(record, rng.below(4) as u16);
    asm.push(rng.pick(&[0, 0, 1, 2, 3, 4]));
    asm.push(record);
    asm.call(11);
}

/// A child that starts where its parent did.
fn child(asm: &mut Asm) {
    [0, 0, 0].into_iter().for_each(|word| asm.push(word));
    asm.call(3);
}

/// Each process's code; with `plain`, nobody ever gives up the processor.
fn code(rng: &mut Rng, state: &mut State, plain: bool) -> Vec<u16> {
    let mut asm = Asm::default();
    // A child goes round at address 0.
    let first = asm.here();
    asm.to(JUMP, first);
    let children = (PROCESSES - state.processes.len()) as u16;
    let mut starts = Vec::new();
    for (me, process) in (0..).zip(&state.processes) {
        let top = asm.here();
        starts.push(asm.length());
        asm.op(NEWLINE, &[me]);
        if !plain {
            routine(rng, &mut asm, me, process.held.first().map(|&gate| u16::from(gate)), children);
        }
        // Who has made its children makes no more.
        asm.to(JUMP, if me == 0 { first } else { top });
    }
    for (process, start) in state.processes.iter_mut().zip(starts) {
        process.address = start;
    }
    asm.finish()
}

/// Who runs, and the others in any order at the tails of their classes.
fn line_up(rng: &mut Rng, state: &mut State) {
    let class = |process: u8| state.processes[usize::from(process)].class;
    let mut order: Vec<u8> = (0..state.processes.len() as u8).collect();
    rng.shuffle(&mut order);
    // The last runs: one of the lowest class or of the best, or any.
    match rng.below(3) {
        0 => order.sort_by_key(|&process| class(process)),
        1 => order.sort_by_key(|&process| CLASSES as u8 - class(process)),
        _ => {}
    }
    state.running = order.pop();
    for process in order {
        state.ready[usize::from(class(process))].push_back(process);
    }
}

/// Two holders among many of class 2, one of class 2 among holders, or a mixture; process i of class 0 holds gate i.
fn classes(rng: &mut Rng, state: &mut State) {
    let created = rng.pick(&[3, 5, 8, 9, 10, 10, 10, 10, 10]);
    state.processes.resize(created, Process::new(0, 0));
    let holders = rng.pick(&[2, 2, 3, created - 1, created - 1]);
    let woken = rng.pick(&[0, 0, 20]);
    let mut order: Vec<u8> = (0..created as u8).collect();
    rng.shuffle(&mut order);
    for (at, me) in order.into_iter().enumerate() {
        let process = &mut state.processes[usize::from(me)];
        process.slice = rng.pick(&[0, 100, 180, 190]);
        if at < holders {
            process.class = 0;
            process.held.push(me);
            state.gates[usize::from(me)].holder = Some(me);
        } else if rng.percent(woken) {
            process.class = 1;
        }
    }
}

pub fn turns(rng: &mut Rng) -> Turns {
    let plain = rng.percent(50);
    let mut state = State::fresh(1, 31, 0);
    state.made = usize::from(OPEN_GATE) + 1;
    classes(rng, &mut state);
    let code = code(rng, &mut state, plain);
    state.length = code.len() as u16;
    line_up(rng, &mut state);
    state.count = rng.pick(&[0, 0, 0, 8, 8, 8, 3, 7]);
    state.mark = rng.percent(20);
    state.fraction = rng.pick(&[0, 9_900]);
    match plain {
        true => Turns { code, state, offers: 100, hurry: 90 },
        false => Turns { code, state, offers: rng.pick(&[20, 60, 100]), hurry: 25 },
    }
}
