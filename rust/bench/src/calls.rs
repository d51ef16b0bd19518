//! One kernel call or one event of a machine with 10 processes and 25 gates: a public step, tick, bell or done.

use crate::best;
use crate::side::{Offer, Side};
use crate::world::{refusal, World};
use model::words::canonical;
use std::hint::black_box;

const ALL_DEVICES: u16 = 31;
const RECORD: u16 = 100;
const STEP: Offer = Offer::Run(1);

fn push(word: u16) -> Vec<u16> {
    vec![1, word]
}

fn trap(call: u16) -> Vec<u16> {
    vec![28, call]
}

fn joined(parts: &[Vec<u16>]) -> Vec<u16> {
    parts.concat()
}

/// What a child does.
#[derive(Clone, Copy)]
enum Child {
    /// Waits for the clock, again and again.
    Clock,
    /// Enters gate 0, and waits for the clock as its holder.
    Holder,
    /// Enters gate 0 once, where it waits.
    Waiter,
    /// Enters gate 0 and is delayed in its cell 0.
    Delayed,
    /// Runs a job that goes round.
    Job,
    /// Waits for the bell, again and again.
    Bell,
    /// Starts device 1, and waits for it.
    Device,
}

/// The code of a child at an address.
fn routine(child: Child, at: u16) -> Vec<u16> {
    let enter = joined(&[push(0), trap(6)]);
    match child {
        Child::Clock => joined(&[trap(0), vec![20, at]]),
        Child::Holder => joined(&[enter, trap(0), trap(4)]),
        Child::Waiter => joined(&[enter, trap(4)]),
        Child::Delayed => joined(&[enter, push(0), push(0), trap(8), trap(4)]),
        Child::Job => vec![26, at + 3, 0, 20, at + 3],
        Child::Bell => joined(&[push(0), push(RECORD), trap(11), vec![20, at]]),
        Child::Device => joined(&[push(1), push(RECORD), trap(11), trap(4)]),
    }
}

struct Case {
    name: &'static str,
    devices: u16,
    gates: usize,
    children: Vec<Child>,
    /// The operation of the record in the common store.
    operation: u16,
    /// What process 0 does before its children are made, and after it: it waits a second between, where `waits`.
    before: Vec<u16>,
    waits: bool,
    /// The call that is timed, with its operands before it; where it is empty, an event.
    operands: Vec<u16>,
    call: Vec<u16>,
    offer: Offer,
}

fn case(name: &'static str, operands: Vec<u16>, call: u16) -> Case {
    Case {
        name,
        devices: ALL_DEVICES,
        gates: 25,
        children: vec![Child::Clock; 9],
        operation: 1,
        before: vec![],
        waits: false,
        operands,
        call: trap(call),
        offer: STEP,
    }
}

fn event(name: &'static str, child: Child, offer: Offer) -> Case {
    Case { children: [vec![child], vec![Child::Clock; 8]].concat(), call: vec![], offer, ..case(name, vec![], 0) }
}

fn with_first(child: Child) -> Vec<Child> {
    [vec![child], vec![Child::Clock; 8]].concat()
}

fn cases() -> Vec<Case> {
    let gate = || push(0);
    let cell = || joined(&[push(0), push(0)]);
    let enter = || joined(&[push(0), trap(6)]);
    let record = |device| joined(&[push(device), push(RECORD)]);
    vec![
        case("0 wait for the clock", vec![], 0),
        case("1 push seconds", vec![], 1),
        case("2 stop the machine", push(3), 2),
        Case { children: vec![Child::Clock; 8], ..case("3 new process", joined(&[push(0), push(0), push(2)]), 3) },
        case("4 end", vec![], 4),
        Case {
            children: with_first(Child::Job),
            before: enter(),
            waits: true,
            ..case("5 stop job", joined(&[push(1), push(20)]), 5)
        },
        case("6 enter an open gate", gate(), 6),
        Case { children: with_first(Child::Holder), ..case("6 enter a shut gate", gate(), 6) },
        Case { before: enter(), ..case("7 leave, nobody waits", gate(), 7) },
        Case {
            children: vec![Child::Waiter; 9],
            before: enter(),
            waits: true,
            ..case("7 leave, nine wait", gate(), 7)
        },
        Case { before: enter(), ..case("8 delay", cell(), 8) },
        Case {
            children: with_first(Child::Delayed),
            operands: joined(&[enter(), cell()]),
            ..case("9 continue a process", vec![], 9)
        },
        Case { before: enter(), ..case("9 continue, empty cell", cell(), 9) },
        Case { gates: 24, ..case("10 new gate", vec![], 10) },
        case("11 I/O, the device starts", record(1), 11),
        Case { operation: 3, ..case("11 I/O, the bell", record(0), 11) },
        Case { devices: 0, ..case("11 I/O, absent device", record(1), 11) },
        event("tick", Child::Clock, Offer::Tick),
        event("tick, nine wake", Child::Clock, Offer::Tick),
        Case { children: vec![Child::Bell; 9], operation: 3, ..event("bell, nine wake", Child::Bell, Offer::Bell) },
        event("done", Child::Device, Offer::Done(1, 0, 7)),
        event("a run of no instruction", Child::Clock, Offer::Run(0)),
        event("soundness test", Child::Clock, Offer::Sound),
    ]
}

/// The program: a jump, the children's routines, then process 0's code; the address at which the children are made, and
/// that of the timed call.
fn program(case: &Case) -> (Vec<u16>, usize, usize) {
    let mut code = vec![20, 0];
    let mut starts = vec![];
    for &child in &case.children {
        starts.push(code.len() as u16);
        code.extend(routine(child, code.len() as u16));
    }
    code[1] = code.len() as u16;
    (0..case.gates).for_each(|_| code.extend(joined(&[trap(10), trap(7)])));
    code.extend(joined(&[push(RECORD), push(case.operation), vec![3]]));
    code.extend(&case.before);
    starts.iter().for_each(|&start| code.extend(joined(&[push(0), push(0), push(start), trap(3)])));
    let made = code.len();
    if case.waits {
        code.extend(trap(0));
    }
    code.extend(&case.operands);
    let at = code.len();
    code.extend(&case.call);
    code.extend(trap(4));
    (code, made, at)
}

/// The machine in front of the timed call, process 0 running; time goes on where it idles or waits.
fn prepared(case: &Case) -> World {
    let (code, made, at) = program(case);
    let mut w = World::loaded(&code, case.devices);
    for round in 0..1_000_000 {
        // The last child begins when the slice of process 0 ends.
        if w.running() == 0 && w.address() == made && w.is_before_others() {
            assert_eq!(refusal(Side::Proved.offer(&mut w, Offer::Tick)), 0);
            continue;
        }
        if w.running() == 0 && w.address() == at {
            let ready = if case.name == "tick, nine wake" { w.fraction() == 9990 } else { true };
            if ready {
                assert_eq!(
                    (w.created(), w.made()),
                    (1 + case.children.len() as u16, case.gates as u16),
                    "{}",
                    case.name
                );
                return w;
            }
            assert_eq!(refusal(Side::Proved.offer(&mut w, Offer::Tick)), 0);
            continue;
        }
        assert_eq!(refusal(Side::Proved.offer(&mut w, STEP)), 0, "{}", case.name);
        if round % 40 == 39 {
            assert_eq!(refusal(Side::Proved.offer(&mut w, Offer::Tick)), 0, "{}", case.name);
        }
    }
    panic!("{}: never there", case.name);
}

fn rounds(side: &mut Side, w: &mut World, saved: &World, offer: Offer, n: u32) {
    for _ in 0..n {
        w.restore(saved);
        black_box(side.offer(black_box(w), offer));
    }
}

/// Both leave the same; words that say nothing aside.
fn agree(case: &Case, saved: &World) {
    let (mut a, mut b) = (saved.clone(), saved.clone());
    let answers = (Side::Proved.offer(&mut a, case.offer), Side::plain().offer(&mut b, case.offer));
    assert_eq!(answers.0, answers.1, "{}", case.name);
    assert_eq!((&a.common, &a.private), (&b.common, &b.private), "{}", case.name);
    let words = |w: &World| canonical(w.state[..].try_into().expect("822 words"));
    assert_eq!(words(&a), words(&b), "{}", case.name);
}

pub fn names() -> impl Iterator<Item = &'static str> {
    cases().into_iter().map(|case| case.name)
}

pub fn count(side: &mut Side, name: &str, n: u32) {
    let case = cases().into_iter().find(|case| case.name == name).expect("a row's name");
    let saved = prepared(&case);
    rounds(side, &mut saved.clone(), &saved, case.offer, n);
}

pub fn table() {
    const ROUNDS: u32 = 20_000;
    println!("ns an offer, 10 processes and 25 gates; 'itself' is without what a run of no instruction costs");
    println!("{:<34} {:>8} {:>8} {:>12} {:>8} {:>7}", "", "proved", "itself", "plain Rust", "itself", "ratio");
    for case in cases() {
        let saved = prepared(&case);
        agree(&case, &saved);
        let cost = |side: &mut Side, offer| {
            let mut w = saved.clone();
            best(ROUNDS, |n| rounds(side, &mut w, &saved, offer, n))
        };
        let [(x, p), (y, q)] =
            [Side::Proved, Side::plain()].map(|mut side| (cost(&mut side, case.offer), cost(&mut side, Offer::Run(0))));
        println!("{:<34} {x:>8.0} {:>8.0} {y:>12.0} {:>8.0} {:>7.2}", case.name, x - p, y - q, y / x);
    }
}
