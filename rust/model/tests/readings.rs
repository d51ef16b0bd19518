//! Sentences of the paper that are easily read in another way.

mod common;

use common::Bench;
use model::state::{Busy, Queue, Saved};

const NEWLINE: u16 = 0;
const PUSHCONST: u16 = 1;
const PUSHIND: u16 = 2;
const INDEX: u16 = 6;
const ADD: u16 = 12;
const FALSEJUMP: u16 = 21;
const CASEJUMP: u16 = 22;
const ENTER: u16 = 24;
const EXIT: u16 = 25;
const CALLPROG: u16 = 26;
const EXITPROG: u16 = 27;
const KTRAP: u16 = 28;

fn queue(members: &[u8]) -> Queue {
    members.iter().copied().collect()
}

fn hold(bench: &mut Bench, process: u8, gate: u8) {
    bench.state.made = bench.state.made.max(usize::from(gate) + 1);
    bench.state.gates[usize::from(gate)].holder = Some(process);
    let process = &mut bench.state.processes[usize::from(process)];
    process.held.push(gate);
    process.class = 0;
}

/// Process 0 in a job at address 0 with an empty stack; it goes on at n.
fn in_job(code: &[u16], p: u16) -> Bench {
    let mut bench = Bench::new(code);
    let process = &mut bench.state.processes[0];
    let s = 4096 - p;
    process.in_job = true;
    process.saved = Saved { s, b: 4096, address: code.len() as u16, p };
    (process.s, process.b, process.c) = (s, s, s);
    bench
}

/// The job's result, pushed where its words end.
fn result(bench: &Bench) -> u16 {
    let process = &bench.state.processes[0];
    assert_eq!((process.in_job, process.reason, process.saved), (false, 0, Saved::default()));
    assert_eq!((process.b, process.c), (4096, 4096));
    bench.top(0)
}

fn stop_after(mut bench: Bench, steps: usize) -> Option<u8> {
    bench.steps(steps);
    bench.state.stop
}

#[test]
fn callprog_order() {
    let holding = |code: &[u16]| {
        let mut bench = Bench::new(code);
        hold(&mut bench, 0, 0);
        bench
    };
    assert_eq!(stop_after(holding(&[CALLPROG, 0, 1]), 1), Some(7));
    assert_eq!(stop_after(holding(&[CALLPROG, 9, 0]), 1), Some(8));
    assert_eq!(stop_after(Bench::new(&[CALLPROG, 3, 0]), 1), Some(7));
    assert_eq!(stop_after(Bench::new(&[CALLPROG, 2, 0]), 1), None);
}

#[test]
fn a_stop_comes_before_all_faults_of_falsejump() {
    let mut bench = in_job(&[FALSEJUMP], 0);
    bench.state.processes[0].reason = 255;
    bench.step();
    assert_eq!(result(&bench), 255);
    let mut bench = in_job(&[FALSEJUMP], 0);
    bench.step();
    assert_eq!(result(&bench), 7);
}

#[test]
fn a_fault_outdoes_a_stop() {
    let mut bench = in_job(&[ADD], 2);
    bench.state.processes[0].reason = 20;
    bench.step();
    assert_eq!((result(&bench), bench.state.processes[0].s), (7, 4093));
}

#[test]
fn exitprog_answers_the_reason() {
    let mut bench = in_job(&[EXITPROG], 0);
    bench.state.processes[0].reason = 16;
    bench.step();
    assert_eq!(result(&bench), 16);
}

#[test]
fn a_job_may_not_call() {
    for code in [[KTRAP, 1, 0], [CALLPROG, 0, 0], [EXITPROG, 0, 0]] {
        let mut bench = in_job(&code, 0);
        bench.step();
        assert_eq!(result(&bench), if code[0] == EXITPROG { 0 } else { 7 });
    }
    assert_eq!(stop_after(Bench::new(&[EXITPROG]), 1), Some(7));
    assert_eq!(stop_after(Bench::new(&[KTRAP, 12]), 1), Some(7));
}

fn job_reads(address: u16) -> u16 {
    let mut bench = in_job(&[PUSHCONST, address, PUSHIND, EXITPROG], 3);
    bench.state.processes[0].v = 10;
    bench.steps(2);
    if bench.state.processes[0].in_job {
        0
    } else {
        result(&bench)
    }
}

#[test]
fn a_jobs_region() {
    assert_eq!([2057, 2058, 4095].map(job_reads), [2, 0, 0]);
    assert_eq!([0, 2047, 4096, 65_535].map(job_reads), [2; 4]);
    let mut narrow = in_job(&[PUSHCONST, 4094, PUSHIND], 3);
    narrow.state.processes[0].saved.p = 1;
    narrow.steps(2);
    assert_eq!(result(&narrow), 2);
}

fn indexed(base: u16, i: u16, bounds: [u16; 3]) -> Result<u16, u8> {
    let mut bench = Bench::new(&[PUSHCONST, base, PUSHCONST, i, INDEX, bounds[0], bounds[1], bounds[2]]);
    bench.steps(3);
    bench.state.stop.map_or_else(|| Ok(bench.top(0)), Err)
}

#[test]
fn index_in_whole_numbers() {
    assert_eq!(indexed(100, 3, [1, 5, 10]), Ok(120));
    assert_eq!(indexed(100, 6, [1, 5, 60_000]), Err(3));
    assert_eq!(indexed(100, 2, [1, 5, 65_535]), Err(2));
    assert_eq!(indexed(0, 32_767, [32_768, 32_767, 1]), Err(2));
    assert_eq!(indexed(65_531, 2, [1, 5, 10]), Ok(5));
    assert_eq!(indexed(65_531, 1, [1, 5, 10]), Err(2));
    assert_eq!(indexed(4095, 1, [1, 1, 0]), Ok(4095));
    assert_eq!(indexed(4096, 1, [1, 1, 0]), Err(2));
}

fn case(value: u16, min: u16, targets: &[u16]) -> (Option<u8>, u16, u16) {
    let mut code = vec![PUSHCONST, value, CASEJUMP, min, targets.len() as u16];
    code.extend(targets);
    let mut bench = Bench::new(&code);
    bench.steps(2);
    (bench.state.stop, bench.state.processes[0].address, bench.state.processes[0].s)
}

#[test]
fn casejump_takes_its_word_and_tests_only_the_taken_target() {
    assert_eq!(case(5, 4, &[99, 0]), (None, 0, 4096));
    assert_eq!(case(4, 4, &[99, 0]), (Some(7), 2, 4095));
    assert_eq!(case(6, 4, &[99, 0]), (Some(3), 2, 4095));
    assert_eq!(case(32_767, 32_766, &[0, 1, 2]), (None, 1, 4096));
    assert_eq!(case(32_768, 32_766, &[0, 1, 2]), (Some(3), 2, 4095));
    assert_eq!(case(0, 0, &[]), (Some(3), 2, 4095));
}

#[test]
fn stack_words_end_at_b() {
    let mut bench = Bench::new(&[PUSHCONST, 1, PUSHCONST, 2, ENTER, 0, ADD]);
    bench.steps(4);
    assert_eq!(bench.state.stop, Some(7));
}

fn exit(p: u16, old_b: u16, back: u16) -> Option<u8> {
    let mut bench = Bench::new(&[EXIT, p]);
    let process = &mut bench.state.processes[0];
    (process.s, process.b) = (4080, 4090);
    bench.private[4090 - 2048] = old_b;
    bench.private[4091 - 2048] = back;
    bench.step();
    if bench.state.stop.is_none() {
        let process = &bench.state.processes[0];
        assert_eq!((process.s, process.b, process.address), (4092 + p, old_b, back));
    }
    bench.state.stop
}

#[test]
fn exit_tests_its_frame() {
    assert_eq!([4091, 4092, 4096, 4097].map(|old_b| exit(0, old_b, 1)), [Some(7), None, None, Some(7)]);
    assert_eq!([4, 5, 4095, 65_535].map(|p| exit(p, 4096, 0)), [None, Some(7), Some(7), Some(7)]);
    assert_eq!([1, 2, 65_535].map(|back| exit(0, 4096, back)), [None, Some(7), Some(7)]);
}

/// `words` pushed first to last, then the call.
fn called(words: &[u16], call: u16, arrange: impl FnOnce(&mut Bench)) -> Bench {
    let mut code: Vec<u16> = words.iter().flat_map(|&word| [PUSHCONST, word]).collect();
    code.extend([KTRAP, call]);
    let mut bench = Bench::with_processes(&code, 2);
    bench.state.clock = queue(&[1]);
    arrange(&mut bench);
    bench.steps(words.len() + 1);
    bench
}

#[test]
fn order_of_a_new_process_faults() {
    let stop = |words: &[u16], first: u8| {
        let arranged = called(words, 3, |bench| {
            bench.state.running = Some(first);
            bench.state.clock = queue(&[1 - first]);
        });
        arranged.state.stop
    };
    assert_eq!(stop(&[0, 0], 1), Some(7));
    assert_eq!(stop(&[9, 2000, 99], 1), Some(9));
    assert_eq!(stop(&[9, 1025, 99], 0), Some(3));
    assert_eq!(stop(&[9, 8, 99], 0), Some(3));
    assert_eq!(stop(&[8, 8, 99], 0), Some(7));
    assert_eq!(stop(&[0, 8, 99], 0), Some(7));
    assert_eq!(stop(&[0, 8, 65_535], 0), Some(7));
    assert_eq!(stop(&[0, 1024, 0], 0), None);
}

#[test]
fn answers_of_stop_job() {
    let answer = |process: u16, reason: u16, job: bool, pending: u16| {
        let bench = called(&[process, reason], 5, |bench| {
            bench.state.clock.clear();
            bench.state.ready[2] = queue(&[1]);
            let other = &mut bench.state.processes[1];
            other.in_job = job;
            other.saved = Saved { s: 4096, b: 4096, address: 0, p: 0 };
            other.reason = pending;
        });
        (bench.top(0), bench.state.processes[1].reason)
    };
    assert_eq!(answer(2, 3, true, 0), (1, 0));
    assert_eq!(answer(65_535, 3, true, 0), (1, 0));
    assert_eq!(answer(1, 3, false, 0), (2, 0));
    assert_eq!(answer(0, 16, true, 0), (2, 0));
    assert_eq!(answer(1, 15, true, 20), (3, 20));
    assert_eq!(answer(1, 256, true, 0), (3, 0));
    assert_eq!(answer(1, 255, true, 20), (4, 20));
    assert_eq!(answer(1, 255, true, 0), (0, 255));
}

#[test]
fn order_of_request_faults() {
    let stop = |device: u16, record: u16| called(&[device, record], 11, |bench| bench.common[8] = 4).state.stop;
    assert_eq!([2045, 2046, 2047, 4093, 4095, 4096, 65_535].map(|record| stop(9, record)), [Some(2); 7]);
    assert_eq!(stop(5, 0), Some(3));
    assert_eq!(stop(65_535, 0), Some(3));
    assert_eq!(stop(1, 8), Some(3));
    assert_eq!([2044, 2048].map(|record| stop(1, record)), [None; 2]);
}

#[test]
fn control_on_a_busy_and_on_an_absent_terminal() {
    let arrange = |present: u16| {
        move |bench: &mut Bench| {
            bench.state.present = present;
            bench.common[8] = 3;
            bench.common[9] = 7;
            if present & 1 == 1 {
                bench.state.clock.clear();
                bench.state.devices[0] = Some(Busy { process: 1, operation: 2, record: 2048 });
            }
        }
    };
    let mut busy = called(&[0, 8], 11, arrange(31));
    assert_eq!((busy.common[9], busy.answer), (0, [0, 1, 0]));
    assert_eq!(busy.state.bell, queue(&[0]));
    assert_eq!(busy.done(0, 4, 44), 0);
    assert_eq!((busy.state.running, busy.private[2049], busy.private[2050]), (Some(1), 4, 0));
    assert_eq!(busy.state.bell, queue(&[0]));
    let absent = called(&[0, 8], 11, arrange(30));
    assert_eq!((absent.common[9], absent.state.running), (3, Some(0)));
}

#[test]
fn a_bell_wait_does_not_end_a_run() {
    let mut bench = Bench::with_processes(&[PUSHCONST, 0, PUSHCONST, 8, KTRAP, 11, KTRAP, 4], 2);
    bench.common[8] = 3;
    bench.state.ready[2] = queue(&[1]);
    bench.state.processes[1].address = 6;
    assert_eq!(bench.run(10), 0);
    assert_eq!(bench.answer, [1, 4, 0]);
}

#[test]
fn a_start_in_the_last_instruction_wins() {
    let mut bench = Bench::new(&[PUSHCONST, 3, PUSHCONST, 8, KTRAP, 11]);
    assert_eq!(bench.run(3), 0);
    assert_eq!(bench.answer, [2, 3, 3]);
}

#[test]
fn the_slice_ends_after_the_clocks_waiters_joined() {
    let mut bench = Bench::with_processes(&[NEWLINE, 0], 2);
    bench.state.processes[0].slice = 190;
    bench.state.processes[0].class = 1;
    bench.state.fraction = 9_990;
    bench.state.clock = queue(&[1]);
    assert_eq!(bench.tick(), 0);
    assert_eq!((bench.state.running, bench.state.processes[0].class), (Some(1), 2));
    assert_eq!(bench.state.processes[0].slice, 0);
    assert_eq!(bench.state.ready[2], queue(&[0]));
}

#[test]
fn a_holders_slice_ends_for_another_holder() {
    let mut bench = Bench::with_processes(&[NEWLINE, 0], 2);
    hold(&mut bench, 0, 0);
    hold(&mut bench, 1, 1);
    bench.state.ready[0] = queue(&[1]);
    bench.state.processes[0].slice = 190;
    assert_eq!(bench.tick(), 0);
    assert_eq!((bench.state.running, &bench.state.ready[0]), (Some(1), &queue(&[0])));
}

#[test]
fn an_event_selects_even_if_it_wakes_nobody() {
    let mut bench = Bench::with_processes(&[NEWLINE, 0], 2);
    bench.state.processes[1].class = 1;
    bench.state.ready[1] = queue(&[1]);
    assert!(bench.is_sound());
    assert_eq!(bench.bell(), 0);
    assert_eq!((bench.state.running, &bench.state.ready[2]), (Some(1), &queue(&[0])));
}

#[test]
fn class_and_slice_while_waiting() {
    let mut bench = called(&[0], 6, |bench| {
        hold(bench, 1, 0);
        bench.state.processes[0].class = 1;
        bench.state.processes[0].slice = 50;
    });
    assert_eq!((bench.state.processes[0].class, bench.state.processes[0].slice), (1, 50));
    assert_eq!(bench.state.gates[0].queue, queue(&[0]));
    assert!(bench.is_sound());
}

#[test]
fn a_jobs_line_stays() {
    let mut bench = Bench::new(&[CALLPROG, 3, 0, NEWLINE, 77, EXITPROG]);
    bench.steps(4);
    assert_eq!((bench.state.stop, bench.state.processes[0].line), (None, 77));
    bench.state.processes[0].address = 6;
    bench.step();
    assert_eq!((bench.state.stop, bench.state.stop_line), (Some(7), 77));
}

#[test]
fn soundness_taken_literally() {
    let mut bench = Bench::with_processes(&[NEWLINE, 0], 3);
    bench.state.processes[1].class = 1;
    bench.state.ready[1] = queue(&[1]);
    bench.state.devices[0] = Some(Busy { process: 2, operation: 3, record: 4092 });
    bench.state.stop_line = 999;
    assert!(bench.is_sound());
    bench.state.devices[0] = None;
    bench.state.bell = queue(&[2]);
    bench.state.present = 0;
    assert!(bench.is_sound());
    bench.state.bell.clear();
    bench.state.processes[2].ended = true;
    assert!(bench.is_sound());
    bench.state.processes[2].address = 3;
    assert!(!bench.is_sound());
}

#[test]
fn an_unsound_stopped_machine_is_unsound() {
    let mut bench = Bench::new(&[NEWLINE, 0]);
    bench.state.stop = Some(9);
    assert_eq!(bench.tick(), 8);
    bench.state.seconds = 32_768;
    assert_eq!(bench.tick(), 7);
    bench.common.pop();
    assert_eq!(bench.run(1), 6);
}

/// The store's length (6), the state (7), the device (9), the room (10); a stop is no reason to refuse.
#[test]
fn order_of_a_records_refusals() {
    let busy = || {
        let mut bench = Bench::with_processes(&[NEWLINE, 0], 2);
        bench.state.devices[1] = Some(Busy { process: 1, operation: 0, record: 2048 });
        bench.state.stop = Some(9);
        bench
    };
    let mut short = busy();
    short.common.pop();
    short.state.seconds = 32_768;
    assert_eq!(short.record(5, 3), (6, vec![99; 3]));
    let mut unsound = busy();
    unsound.state.seconds = 32_768;
    assert_eq!(unsound.record(5, 3), (7, vec![99; 3]));
    assert_eq!(busy().record(5, 3), (9, vec![99; 3]));
    assert_eq!(busy().record(0, 3), (9, vec![99; 3]));
    assert_eq!(busy().record(1, 3), (10, vec![99; 3]));
    assert_eq!(busy().record(1, 5), (0, vec![0, 0, 0, 0, 99]));
}
