//! The paper's worked examples, with answers found by hand.

mod common;

use common::Bench;
use model::state::{Busy, Queue};

const NEWLINE: u16 = 0;
const PUSHCONST: u16 = 1;
const RANGE: u16 = 7;
const ADD: u16 = 12;
const DIV: u16 = 15;
const MOD: u16 = 16;
const FALSEJUMP: u16 = 21;
const CALLPROG: u16 = 26;
const EXITPROG: u16 = 27;
const KTRAP: u16 = 28;

fn word(value: i32) -> u16 {
    value as u16
}

/// A fresh machine after `left op right`.
fn binary(left: i32, op: u16, right: i32) -> Bench {
    let mut bench = Bench::new(&[PUSHCONST, word(left), PUSHCONST, word(right), op]);
    bench.steps(3);
    bench
}

fn assert_fault(bench: &Bench, number: u8) {
    assert_eq!(bench.state.stop, Some(number));
    assert_eq!(bench.answer, [3, 1, 0]);
}

#[test]
fn sum_too_large() {
    let bench = binary(32_767, ADD, 1);
    assert_fault(&bench, 1);
    assert_eq!((bench.state.processes[0].s, bench.state.processes[0].address), (4094, 4));
}

#[test]
fn quotients() {
    assert_fault(&binary(-32_768, DIV, -1), 1);
    assert_eq!(binary(-7, DIV, 3).top(0), word(-2));
    assert_fault(&binary(7, DIV, 0), 1);
}

#[test]
fn remainders() {
    assert_eq!(binary(-7, MOD, 3).top(0), word(-1));
    assert_eq!(binary(7, MOD, -3).top(0), 1);
    assert_eq!(binary(-1, MOD, -32_768).top(0), word(-1));
    assert_eq!(binary(-32_768, MOD, -1).top(0), 0);
    assert_fault(&binary(7, MOD, 0), 1);
}

#[test]
fn range_at_its_end_and_past_it() {
    let mut inside = Bench::new(&[PUSHCONST, 10, RANGE, 1, 10]);
    inside.steps(2);
    assert_eq!((inside.state.stop, inside.top(0)), (None, 10));
    let mut outside = Bench::new(&[PUSHCONST, 11, RANGE, 1, 10]);
    outside.steps(2);
    assert_fault(&outside, 3);
}

#[test]
fn enter_an_open_gate() {
    let mut bench = Bench::new(&[PUSHCONST, 0, KTRAP, 6]);
    bench.state.made = 1;
    bench.steps(2);
    assert_eq!(bench.state.gates[0].holder, Some(0));
    assert_eq!(bench.state.processes[0].held, [0]);
    assert_eq!((bench.state.processes[0].class, bench.state.running), (0, Some(0)));
}

/// Process 0 runs and holds gate 0.
fn held_gate(code: &[u16], processes: usize) -> Bench {
    let mut bench = Bench::with_processes(code, processes);
    bench.state.made = 1;
    bench.state.gates[0].holder = Some(0);
    bench.state.processes[0].held = vec![0];
    bench.state.processes[0].class = 0;
    bench
}

fn queue(members: &[u8]) -> Queue {
    members.iter().copied().collect()
}

#[test]
fn leave_with_two_waiters() {
    let mut bench = held_gate(&[PUSHCONST, 0, KTRAP, 7], 3);
    bench.state.gates[0].queue = queue(&[2, 1]);
    bench.steps(2);
    assert_eq!(bench.state.gates[0].holder, Some(2));
    assert_eq!(bench.state.gates[0].queue, queue(&[1]));
    assert_eq!(bench.state.processes[2].held, [0]);
    assert_eq!(bench.state.processes[0].class, 2);
    assert_eq!(bench.state.running, Some(2));
    assert_eq!(bench.state.ready[2], queue(&[0]));
    assert!(bench.is_sound());
}

#[test]
fn delay_with_no_waiter() {
    let mut bench = held_gate(&[PUSHCONST, 0, PUSHCONST, 5, KTRAP, 8], 1);
    bench.steps(3);
    assert_eq!(bench.state.gates[0].holder, None);
    assert_eq!(bench.state.gates[0].cells[5], Some(0));
    assert_eq!((bench.state.running, bench.state.processes[0].class), (None, 2));
    bench.step();
    assert_eq!(bench.answer, [1, 0, 0]);
}

#[test]
fn continue_with_nobody_delayed_and_no_waiter() {
    let mut bench = held_gate(&[PUSHCONST, 0, PUSHCONST, 5, KTRAP, 9], 1);
    bench.steps(3);
    assert!(bench.state.gates[0].is_deserted());
    assert_eq!((bench.state.running, bench.state.processes[0].class), (Some(0), 2));
}

#[test]
fn continued_goes_before_the_waiters() {
    let mut bench = held_gate(&[PUSHCONST, 0, PUSHCONST, 5, KTRAP, 9], 3);
    bench.state.gates[0].cells[5] = Some(1);
    bench.state.gates[0].queue = queue(&[2]);
    bench.steps(3);
    assert_eq!(bench.state.gates[0].holder, Some(1));
    assert_eq!(bench.state.gates[0].cells[5], None);
    assert_eq!(bench.state.gates[0].queue, queue(&[2]));
    assert_eq!(bench.state.running, Some(1));
}

/// One waiter, two delayed: two continues and a leave, and the waiter holds.
#[test]
fn held_at_the_third_operation() {
    let mut code = Vec::new();
    code.extend([PUSHCONST, 0, PUSHCONST, 0, KTRAP, 9]);
    code.extend([PUSHCONST, 0, PUSHCONST, 1, KTRAP, 9]);
    code.extend([PUSHCONST, 0, KTRAP, 7]);
    let mut bench = held_gate(&code, 4);
    bench.state.gates[0].queue = queue(&[3]);
    bench.state.gates[0].cells[0] = Some(1);
    bench.state.gates[0].cells[1] = Some(2);
    bench.state.processes[1].address = 6;
    bench.state.processes[2].address = 12;
    bench.steps(3);
    assert_eq!(bench.state.gates[0].holder, Some(1));
    bench.steps(3);
    assert_eq!(bench.state.gates[0].holder, Some(2));
    bench.steps(2);
    assert_eq!(bench.state.gates[0].holder, Some(3));
    assert_eq!(bench.state.ready[2], queue(&[0, 1, 2]));
    assert!(bench.is_sound());
}

#[test]
fn tick_at_the_last_second() {
    let mut bench = Bench::with_processes(&[NEWLINE, 0], 3);
    bench.state.seconds = 32_767;
    bench.state.fraction = 9_990;
    bench.state.clock = queue(&[2, 1]);
    assert_eq!(bench.tick(), 0);
    assert_eq!((bench.state.seconds, bench.state.fraction), (0, 0));
    assert_eq!(bench.state.ready[2], queue(&[2, 1]));
    assert_eq!(bench.state.processes[0].slice, 10);
    assert_eq!(bench.state.running, Some(0));
}

/// A job at FALSEJUMP with 1 on its stack and a stop pending.
fn stopped_job() -> Bench {
    let mut bench = Bench::new(&[CALLPROG, 4, 0, NEWLINE, PUSHCONST, 1, FALSEJUMP, 4, EXITPROG]);
    bench.steps(2);
    bench.state.processes[0].reason = 20;
    bench
}

#[test]
fn stop_at_a_falsejump() {
    let mut bench = stopped_job();
    bench.step();
    let process = &bench.state.processes[0];
    assert_eq!((process.address, process.in_job, process.reason), (3, false, 0));
    assert_eq!((process.s, process.b, process.c), (4095, 4096, 4096));
    assert_eq!(bench.top(0), 20);
}

#[test]
fn a_stop_is_gone_for_the_next_job() {
    let mut bench = stopped_job();
    bench.step();
    bench.state.processes[0].address = 0;
    bench.steps(3);
    assert_eq!(bench.state.processes[0].address, 8);
    bench.step();
    assert_eq!((bench.top(0), bench.state.processes[0].s), (0, 4094));
}

#[test]
fn a_faulting_job_answers_its_fault() {
    let mut bench = Bench::new(&[PUSHCONST, 9, CALLPROG, 5, 1, DIV]);
    bench.steps(3);
    assert_eq!((bench.top(0), bench.state.processes[0].s), (7, 4094));
    assert_eq!(bench.state.stop, None);
}

/// S stands at the floor.
#[test]
fn no_room_for_a_jobs_result() {
    let mut bench = Bench::new(&[CALLPROG, 3, 0, EXITPROG]);
    bench.state.processes[0].s = 2048;
    bench.steps(2);
    assert_fault(&bench, 6);
    let process = &bench.state.processes[0];
    assert_eq!((process.in_job, process.address, process.c), (true, 3, 2048));
    assert!(bench.is_sound());
}

#[test]
fn words_of_a_new_process_stand_in_the_order_pushed() {
    let mut bench = Bench::new(&[PUSHCONST, 11, PUSHCONST, 22, PUSHCONST, 2, PUSHCONST, 5, PUSHCONST, 0, KTRAP, 3]);
    bench.private[2048..4096].fill(9);
    bench.steps(6);
    assert_eq!(bench.private[2048..2053], [11, 22, 0, 0, 0]);
    assert_eq!(bench.state.running, Some(0));
    assert_eq!(bench.state.ready[2], queue(&[1]));
    assert_eq!((bench.state.processes[1].v, bench.state.processes[0].s), (5, 4096));
}

#[test]
fn a_device_from_start_to_end() {
    let mut bench = Bench::new(&[PUSHCONST, 1, PUSHCONST, 2044, KTRAP, 11]);
    bench.common[2044..2048].copy_from_slice(&[0, 5, 6, 7]);
    assert_eq!(bench.run(100), 0);
    assert_eq!(bench.answer, [2, 3, 1]);
    assert_eq!(bench.common[2044..2048], [0, 0, 6, 7]);
    assert_eq!(bench.record(1, 4), (0, vec![0, 0, 6, 7]));
    assert_eq!(bench.done(0, 0, 0), 9);
    assert_eq!(bench.done(1, 7, 0), 9);
    assert_eq!(bench.done(1, 0, 77), 0);
    assert_eq!(bench.common[2044..2048], [0, 0, 77, 7]);
    assert_eq!((bench.state.processes[0].class, bench.state.running), (1, Some(0)));
}

/// Process 1 waits for the printer; the record is in its own part, and process 0 stops the machine.
#[test]
fn a_record_is_its_owners_even_on_a_stopped_machine() {
    let mut bench = Bench::with_processes(&[PUSHCONST, 4, KTRAP, 2], 2);
    bench.state.devices[3] = Some(Busy { process: 1, operation: 2, record: 4092 });
    bench.private[2048 + 2044..4096].copy_from_slice(&[1, 2, 3, 4]);
    bench.steps(2);
    assert_eq!(bench.state.stop, Some(4));
    assert_eq!(bench.record(3, 4), (0, vec![1, 2, 3, 4]));
}

#[test]
fn control_on_the_terminal_waits_for_the_bell() {
    let mut bench = Bench::new(&[PUSHCONST, 0, PUSHCONST, 100, KTRAP, 11]);
    bench.common[100] = 3;
    assert_eq!(bench.run(100), 0);
    assert_eq!(bench.answer, [1, 3, 0]);
    assert_eq!(bench.state.devices, [None; 5]);
    assert_eq!(bench.done(0, 0, 0), 9);
    assert_eq!(bench.bell(), 0);
    assert_eq!((bench.state.processes[0].class, bench.state.running), (2, Some(0)));
}

#[test]
fn a_stopped_machine_is_refused() {
    let mut bench = Bench::new(&[PUSHCONST, 4, KTRAP, 2]);
    bench.steps(2);
    assert_fault(&bench, 4);
    assert_eq!((bench.state.processes[0].s, bench.state.processes[0].address), (4095, 2));
    assert_eq!([bench.tick(), bench.bell(), bench.done(9, 9, 9), bench.run(1)], [8; 4]);
}

#[test]
fn budget_comes_before_idle() {
    let mut bench = Bench::new(&[KTRAP, 4]);
    assert_eq!(bench.run(1), 0);
    assert_eq!(bench.answer, [0, 1, 0]);
    assert_eq!(bench.run(0), 0);
    assert_eq!(bench.answer, [0, 0, 0]);
    assert_eq!(bench.run(1), 0);
    assert_eq!(bench.answer, [1, 0, 0]);
}
