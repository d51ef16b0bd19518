//! The count, the mark and call 3 (W-212), with values worked out by hand.

mod common;

use common::Bench;
use model::state::{Busy, Queue};
use model::words::{decode, encode, COUNT_AT, MARK_AT};

const NEWLINE: u16 = 0;
const PUSHCONST: u16 = 1;
const JUMP: u16 = 20;
const KTRAP: u16 = 28;
const ROUND: [u16; 4] = [NEWLINE, 0, JUMP, 0];

fn queue(members: &[u8]) -> Queue {
    members.iter().copied().collect()
}

fn hold(bench: &mut Bench, process: u8, gate: u8) {
    bench.state.gates[usize::from(gate)].holder = Some(process);
    let process = &mut bench.state.processes[usize::from(process)];
    process.held.push(gate);
    process.class = 0;
}

/// Process 0 runs and the others are ready, each of its class; of class 0, process i holds gate i. Gate 9 is open.
fn of_classes(code: &[u16], classes: &[u8]) -> Bench {
    let mut bench = Bench::with_processes(code, classes.len());
    bench.state.made = 10;
    for (number, &class) in (0..).zip(classes) {
        bench.state.processes[usize::from(number)].class = class;
        if class == 0 {
            hold(&mut bench, number, number);
        }
        if number > 0 {
            bench.state.ready[usize::from(class)].push_back(number);
        }
    }
    assert!(bench.is_sound());
    bench
}

fn with_count(mut bench: Bench, count: u8) -> Bench {
    bench.state.count = count;
    bench
}

fn marked(mut bench: Bench) -> Bench {
    bench.state.mark = true;
    bench
}

/// Who runs, the count and the mark.
fn turn(bench: &Bench) -> (Option<u8>, u8, bool) {
    (bench.state.running, bench.state.count, bench.state.mark)
}

/// The running process's slice reaches 200.
fn end_slice(bench: &mut Bench) {
    let running = bench.state.running.expect("somebody runs");
    bench.state.processes[usize::from(running)].slice = 190;
    assert_eq!(bench.tick(), 0);
}

#[test]
fn the_ninth_selection_is_from_class_2_and_marked() {
    let mut bench = of_classes(&ROUND, &[0, 0, 2, 2]);
    for (running, count) in [(1, 1), (0, 2), (1, 3), (0, 4), (1, 5), (0, 6), (1, 7), (0, 8)] {
        end_slice(&mut bench);
        assert_eq!(turn(&bench), (Some(running), count, false));
    }
    end_slice(&mut bench);
    assert_eq!(turn(&bench), (Some(2), 0, true));
    assert_eq!((&bench.state.ready[0], &bench.state.ready[2]), (&queue(&[1, 0]), &queue(&[3])));
    bench.steps(2);
    assert_eq!(bench.tick(), 0);
    assert_eq!(turn(&bench), (Some(2), 0, true));
    end_slice(&mut bench);
    assert_eq!(turn(&bench), (Some(1), 1, false));
    assert_eq!(bench.state.ready[2], queue(&[3, 2]));
}

/// Of class 2, place 2 runs at the eighteenth selection.
#[test]
fn place_2_of_class_2() {
    let mut bench = of_classes(&ROUND, &[0, 0, 2, 2]);
    (0..17).for_each(|_| end_slice(&mut bench));
    assert_eq!(turn(&bench), (Some(0), 8, false));
    end_slice(&mut bench);
    assert_eq!(turn(&bench), (Some(3), 0, true));
}

/// Of class 0, place 1 runs at the second selection where class 2 is due, place 8 at the ninth.
#[test]
fn places_of_class_0() {
    let mut bench = with_count(of_classes(&ROUND, &[0, 0, 0, 0, 0, 0, 0, 0, 0, 2]), 8);
    for running in [9, 1, 2, 3, 4, 5, 6, 7, 8] {
        end_slice(&mut bench);
        assert_eq!(bench.state.running, Some(running));
    }
}

#[test]
fn class_1_counts_too() {
    let mut bench = with_count(of_classes(&[KTRAP, 0], &[1, 1, 2]), 4);
    bench.step();
    assert_eq!(turn(&bench), (Some(1), 5, false));
}

#[test]
fn any_selection_from_class_2_sets_the_count_to_0() {
    for count in 0..8 {
        let mut bench = with_count(of_classes(&ROUND, &[2, 2]), count);
        end_slice(&mut bench);
        assert_eq!(turn(&bench), (Some(1), 0, false));
        let mut waits = with_count(of_classes(&[KTRAP, 0], &[0, 2]), count);
        waits.step();
        assert_eq!(turn(&waits), (Some(1), 0, false));
    }
}

#[test]
fn the_count_of_8_marks_where_no_better_class_is_ready() {
    let mut bench = with_count(of_classes(&ROUND, &[2, 2]), 8);
    end_slice(&mut bench);
    assert_eq!(turn(&bench), (Some(1), 0, true));
    let mut idle = with_count(of_classes(&[KTRAP, 0, JUMP, 0], &[2]), 8);
    idle.step();
    assert_eq!(turn(&idle), (None, 8, false));
    idle.state.fraction = 9_990;
    assert_eq!(idle.tick(), 0);
    assert_eq!(turn(&idle), (Some(0), 0, true));
}

#[test]
fn while_class_2_is_empty_the_count_stays() {
    for count in [0, 3, 7, 8] {
        let mut holders = with_count(of_classes(&ROUND, &[0, 0]), count);
        end_slice(&mut holders);
        assert_eq!(turn(&holders), (Some(1), count, false));
        let mut waits = with_count(of_classes(&[KTRAP, 0], &[0, 1]), count);
        waits.step();
        assert_eq!(turn(&waits), (Some(1), count, false));
    }
}

/// Class 2 is looked at after the displaced process has joined it.
#[test]
fn a_lone_displaced_process_of_class_2() {
    let displaced = |count: u8| {
        let mut bench = with_count(of_classes(&ROUND, &[2, 1]), count);
        bench.state.processes[0].slice = 50;
        assert_eq!(bench.bell(), 0);
        assert_eq!(bench.state.processes[0].slice, 50);
        bench
    };
    let first = displaced(0);
    assert_eq!((turn(&first), &first.state.ready[2]), ((Some(1), 1, false), &queue(&[0])));
    assert_eq!(turn(&displaced(7)), (Some(1), 8, false));
    let itself = displaced(8);
    assert_eq!(turn(&itself), (Some(0), 0, true));
    assert_eq!((&itself.state.ready[1], &itself.state.ready[2]), (&queue(&[1]), &queue(&[])));
}

/// Behind another of class 2 it is that one which runs; of class 1 it counts nothing while class 2 is empty.
#[test]
fn displaced_processes_at_the_count_of_8() {
    let mut behind = with_count(of_classes(&ROUND, &[2, 0, 2]), 8);
    behind.step();
    assert_eq!((turn(&behind), &behind.state.ready[2]), ((Some(2), 0, true), &queue(&[0])));
    let mut of_class_1 = with_count(of_classes(&ROUND, &[1, 0]), 8);
    of_class_1.step();
    assert_eq!((turn(&of_class_1), &of_class_1.state.ready[1]), ((Some(1), 8, false), &queue(&[0])));
}

/// Its slice ends in the tick that wakes a holder, and nobody else is of class 2.
#[test]
fn at_the_slices_end_too_it_may_take_itself() {
    let mut bench = with_count(of_classes(&ROUND, &[2, 0]), 8);
    bench.state.ready[0].clear();
    bench.state.clock = queue(&[1]);
    bench.state.fraction = 9_990;
    end_slice(&mut bench);
    assert_eq!((turn(&bench), bench.state.processes[0].slice), ((Some(0), 0, true), 0));
    assert_eq!(bench.state.ready[0], queue(&[1]));
}

#[test]
fn nothing_that_becomes_ready_displaces_a_marked_process() {
    let mut bench = marked(with_count(of_classes(&ROUND, &[2, 0, 1, 2, 1]), 5));
    bench.state.ready = Default::default();
    bench.state.clock = queue(&[1]);
    bench.state.bell = queue(&[2, 4]);
    bench.state.devices[1] = Some(Busy { process: 3, operation: 0, record: 100 });
    bench.state.fraction = 9_990;
    assert_eq!(bench.tick(), 0);
    assert_eq!((turn(&bench), &bench.state.ready[0]), ((Some(0), 5, true), &queue(&[1])));
    assert_eq!(bench.bell(), 0);
    assert_eq!(bench.done(1, 0, 0), 0);
    bench.steps(3);
    assert_eq!((turn(&bench), &bench.state.ready[1]), ((Some(0), 5, true), &queue(&[2, 4, 3])));
    end_slice(&mut bench);
    assert_eq!(turn(&bench), (Some(1), 6, false));
}

/// The tick to 190 leaves it; the next ends it, though the process runs on.
#[test]
fn the_mark_ends_with_the_slice() {
    let mut alone = marked(of_classes(&ROUND, &[2]));
    alone.state.processes[0].slice = 180;
    assert_eq!(alone.tick(), 0);
    assert_eq!(turn(&alone), (Some(0), 0, true));
    assert_eq!(alone.tick(), 0);
    assert_eq!((turn(&alone), alone.state.processes[0].slice), ((Some(0), 0, false), 0));

    let mut holder = marked(of_classes(&ROUND, &[0, 2]));
    end_slice(&mut holder);
    assert_eq!(turn(&holder), (Some(0), 0, false));
    let mut before_class_1 = marked(of_classes(&ROUND, &[2, 1]));
    end_slice(&mut before_class_1);
    assert_eq!(turn(&before_class_1), (Some(1), 1, false));
}

/// Process 0 of class 2, marked, with process 1 of class 1 ready, after all of the code's steps.
fn runs_on(code: &[u16], steps: usize, arrange: impl FnOnce(&mut Bench)) -> Bench {
    let mut bench = marked(with_count(of_classes(code, &[2, 1, 2]), 3));
    arrange(&mut bench);
    assert!(bench.is_sound());
    bench.steps(steps);
    assert_eq!((turn(&bench), bench.state.stop), ((Some(0), 3, true), None));
    bench
}

#[test]
fn the_mark_stays_at_gates() {
    let entered = runs_on(&[PUSHCONST, 9, KTRAP, 6], 2, |_| {});
    assert_eq!((entered.state.gates[9].holder, entered.state.processes[0].class), (Some(0), 0));
    let left = runs_on(&[PUSHCONST, 9, KTRAP, 6, PUSHCONST, 9, KTRAP, 7], 4, |_| {});
    assert_eq!((left.state.gates[9].holder, left.state.processes[0].class), (None, 2));
    let made = runs_on(&[KTRAP, 10], 1, |_| {});
    assert_eq!((made.state.gates[10].holder, made.top(0)), (Some(0), 10));
}

/// The new holder, of class 0, waits for the marked one.
#[test]
fn the_mark_stays_where_a_gate_is_passed_on() {
    let waiter = |bench: &mut Bench| {
        hold(bench, 0, 9);
        bench.state.ready[2].clear();
        bench.state.gates[9].queue = queue(&[2]);
    };
    let left = runs_on(&[PUSHCONST, 9, KTRAP, 7], 2, waiter);
    assert_eq!((left.state.gates[9].holder, &left.state.ready[0]), (Some(2), &queue(&[2])));
    let delayed = |bench: &mut Bench| {
        hold(bench, 0, 9);
        bench.state.ready[2].clear();
        bench.state.gates[9].cells[5] = Some(2);
    };
    let continued = runs_on(&[PUSHCONST, 9, PUSHCONST, 5, KTRAP, 9], 3, delayed);
    assert_eq!((continued.state.gates[9].holder, &continued.state.ready[0]), (Some(2), &queue(&[2])));
    runs_on(&[PUSHCONST, 9, PUSHCONST, 4, KTRAP, 9], 3, delayed);
}

#[test]
fn the_mark_stays_where_the_caller_goes_on() {
    let clock = runs_on(&[KTRAP, 1], 1, |bench| bench.state.seconds = 77);
    assert_eq!(clock.top(0), 77);
    runs_on(&[PUSHCONST, 1, PUSHCONST, 20, KTRAP, 5], 3, |_| {});
    let absent = runs_on(&[PUSHCONST, 1, PUSHCONST, 100, KTRAP, 11], 3, |bench| bench.state.present = 1);
    assert_eq!(absent.common[101], 3);
    let mut stopped = marked(with_count(of_classes(&[PUSHCONST, 4, KTRAP, 2], &[2, 1]), 8));
    stopped.steps(2);
    assert_eq!((turn(&stopped), stopped.state.stop), ((Some(0), 8, true), Some(4)));
}

/// Marked process 0 gives up the processor: process 1 of class 2 runs without a mark, or the machine idles.
fn gives_up(code: &[u16], budget: u32, arrange: impl Fn(&mut Bench)) -> Bench {
    let mut alone = marked(with_count(of_classes(code, &[2]), 3));
    arrange(&mut alone);
    assert_eq!(alone.run(budget), 0);
    assert_eq!((turn(&alone), alone.state.stop, alone.is_sound()), ((None, 3, false), None, true));
    let mut bench = marked(with_count(of_classes(code, &[2, 2]), 3));
    arrange(&mut bench);
    assert_eq!(bench.run(budget), 0);
    assert_eq!((turn(&bench), bench.state.stop, bench.is_sound()), ((Some(1), 0, false), None, true));
    bench
}

#[test]
fn the_mark_ends_where_the_process_waits_or_ends() {
    assert_eq!(gives_up(&[KTRAP, 0], 1, |_| {}).state.clock, queue(&[0]));
    assert!(gives_up(&[KTRAP, 4], 1, |_| {}).state.processes[0].ended);
    let cell = gives_up(&[PUSHCONST, 9, PUSHCONST, 5, KTRAP, 8], 3, |bench| hold(bench, 0, 9));
    assert_eq!(cell.state.gates[9].cells[5], Some(0));
    let bell = gives_up(&[PUSHCONST, 0, PUSHCONST, 100, KTRAP, 11], 3, |bench| bench.common[100] = 3);
    assert_eq!(bell.state.bell, queue(&[0]));
    let mut device = gives_up(&[PUSHCONST, 1, PUSHCONST, 100, KTRAP, 11], 3, |bench| bench.common[100] = 1);
    assert_eq!((device.answer, device.record(1, 4)), ([2, 3, 1], (0, vec![1, 0, 0, 0])));
}

/// The holder of the gate, of class 0, is the one who runs then.
#[test]
fn the_mark_ends_at_a_shut_gate() {
    let mut bench = marked(with_count(of_classes(&[PUSHCONST, 1, KTRAP, 6], &[2, 0, 2]), 3));
    bench.steps(2);
    assert_eq!((turn(&bench), &bench.state.gates[1].queue), ((Some(1), 4, false), &queue(&[0])));
}

/// Process 0 makes a process at address 0.
fn after_call_3(classes: &[u8], count: u8, mark: bool) -> Bench {
    let code = [PUSHCONST, 0, PUSHCONST, 0, PUSHCONST, 0, KTRAP, 3];
    let mut bench = with_count(of_classes(&code, classes), count);
    bench.state.mark = mark;
    bench.steps(4);
    assert_eq!((bench.state.stop, bench.is_sound()), (None, true));
    bench
}

#[test]
fn a_lone_parent_runs_on() {
    for count in [0, 5] {
        let parent = after_call_3(&[2], count, true);
        assert_eq!((turn(&parent), &parent.state.ready[2]), ((Some(0), 0, false), &queue(&[1])));
    }
    let holder = after_call_3(&[0], 0, false);
    assert_eq!((turn(&holder), &holder.state.ready[2]), ((Some(0), 1, false), &queue(&[1])));
    assert_eq!(turn(&after_call_3(&[1], 7, true)), (Some(0), 8, false));
}

#[test]
fn call_3_at_the_count_of_8() {
    let parent = after_call_3(&[2], 8, false);
    assert_eq!((turn(&parent), &parent.state.ready[2]), ((Some(0), 0, true), &queue(&[1])));
    let child = after_call_3(&[0], 8, false);
    assert_eq!((turn(&child), &child.state.ready[0]), ((Some(1), 0, true), &queue(&[0])));
}

#[test]
fn a_parent_with_others_goes_behind_them() {
    let same_class = after_call_3(&[2, 2], 5, true);
    assert_eq!((turn(&same_class), &same_class.state.ready[2]), ((Some(1), 0, false), &queue(&[0, 2])));
    let better_class = after_call_3(&[2, 1, 2], 5, true);
    assert_eq!((turn(&better_class), &better_class.state.ready[2]), ((Some(1), 6, false), &queue(&[2, 0, 3])));
    let holders = after_call_3(&[0, 0], 5, false);
    assert_eq!((turn(&holders), &holders.state.ready[0]), ((Some(1), 6, false), &queue(&[0])));
}

#[test]
fn soundness_of_the_count_and_the_mark() {
    let mut bench = of_classes(&[KTRAP, 4], &[2]);
    for (count, sound) in [(0, true), (8, true), (9, false), (255, false)] {
        bench.state.count = count;
        assert_eq!(bench.is_sound(), sound);
    }
    let mut bench = marked(with_count(bench, 8));
    assert!(bench.is_sound());
    bench.step();
    assert_eq!((turn(&bench), bench.is_sound()), ((None, 8, false), true));
    bench.state.mark = true;
    assert_eq!((bench.is_sound(), bench.tick()), (false, 7));
}

#[test]
fn the_two_last_words() {
    let bench = marked(with_count(of_classes(&ROUND, &[2]), 5));
    let words = encode(&bench.state);
    assert_eq!((words.len(), COUNT_AT, MARK_AT, words[820], words[821]), (822, 820, 821, 5, 1));
    let read = |at: usize, value: u16| {
        let mut words = words;
        words[at] = value;
        decode(&words).map(|state| (state.count, state.mark))
    };
    assert_eq!(
        [0, 9, 255, 256].map(|value| read(820, value)),
        [Some((0, true)), Some((9, true)), Some((255, true)), None]
    );
    assert_eq!([0, 1, 2, 256].map(|value| read(821, value)), [Some((5, false)), Some((5, true)), None, None]);
    assert_eq!(decode(&words[..820]), None);
}
