//! Sound states made out of nothing.

use crate::rng::Rng;
use model::state::*;

#[derive(Clone, Copy, PartialEq)]
enum Place {
    Running,
    Ready,
    Gate,
    Cell,
    Clock,
    Device,
    Bell,
    Ended,
}

/// `low` to `high`, likely near one of both.
fn near_ends(rng: &mut Rng, low: u16, high: u16) -> u16 {
    let width = high - low;
    match rng.below(5) {
        0 | 1 => low + rng.below(6) as u16 % (width + 1),
        2 | 3 => high - rng.below(16) as u16 % (width + 1),
        _ => low + rng.below(u32::from(width) + 1) as u16,
    }
}

fn registers(rng: &mut Rng, process: &mut Process, length: u16) {
    process.v = rng.pick(&[0, 0, 3, 8, 40, 1023, 1024]);
    process.address = rng.below(u32::from(length) + 1) as u16;
    process.line = rng.below(500) as u16;
    process.slice = rng.pick(&[0, 10, 100, 180, 190, 190]);
    let floor = process.floor() as u16;
    if !process.in_job {
        process.b = near_ends(rng, floor, TOP);
        process.s = near_ends(rng, floor, process.b);
        return;
    }
    let b = near_ends(rng, floor, TOP);
    let s = near_ends(rng, floor, b);
    let words = if rng.percent(80) { b - s } else { TOP - s };
    let p = near_ends(rng, 0, words);
    process.saved = Saved { s, b, address: rng.below(u32::from(length) + 1) as u16, p };
    process.c = s;
    process.b = near_ends(rng, floor, s);
    process.s = near_ends(rng, floor, process.b);
    if rng.percent(40) {
        process.reason = rng.pick(&[16, 17, 20, 100, 254, 255]);
    }
}

/// One sentence of soundness that a state is likely to break.
#[derive(Clone, Copy, PartialEq)]
pub enum Flaw {
    WaiterHoldsEight,
    OpenWithWaiter,
    ReadyWhileIdle,
    ClassWhileReady,
    WaitsAtOwn,
    EndedHolds,
    JobHolds,
    JobWaits,
    CountOver,
    MarkWhileIdle,
}

pub const FLAWS: [Flaw; 10] = [
    Flaw::WaiterHoldsEight,
    Flaw::OpenWithWaiter,
    Flaw::ReadyWhileIdle,
    Flaw::ClassWhileReady,
    Flaw::WaitsAtOwn,
    Flaw::EndedHolds,
    Flaw::JobHolds,
    Flaw::JobWaits,
    Flaw::CountOver,
    Flaw::MarkWhileIdle,
];

/// Gates with holders; who may hold, and how many, depends on the place.
fn hold(rng: &mut Rng, state: &mut State, places: &[Place], flaw: Option<Flaw>) {
    let too_many = flaw == Some(Flaw::WaiterHoldsEight);
    let waiter = places.iter().position(|&place| matches!(place, Place::Gate | Place::Cell));
    let greedy = match waiter {
        Some(waiter) if too_many => Some(waiter),
        _ => match rng.below(4) {
            0 | 1 => places.iter().position(|&place| place == Place::Running),
            2 => Some(rng.index(places.len())),
            _ => None,
        },
    };
    let mut order: Vec<usize> = (0..state.made).collect();
    rng.shuffle(&mut order);
    for gate in order {
        if rng.percent(35) {
            continue;
        }
        let number = greedy.filter(|_| rng.percent(70)).unwrap_or_else(|| rng.index(places.len()));
        let process = &mut state.processes[number];
        let most = match places[number] {
            Place::Ended if flaw != Some(Flaw::EndedHolds) => 0,
            Place::Gate | Place::Cell if !too_many => 7,
            _ => 8,
        };
        let may_hold = !process.in_job || flaw == Some(Flaw::JobHolds);
        if may_hold && process.held.len() < most {
            process.held.push(gate as u8);
            process.class = 0;
            state.gates[gate].holder = Some(number as u8);
        }
    }
}

/// Whether a place was found at a gate.
fn sit(rng: &mut Rng, state: &mut State, number: u8, place: Place, flaw: Option<Flaw>) -> bool {
    if state.made == 0 {
        return false;
    }
    // Few gates, so that waiters come together: often the one given up next.
    let running = state.running.map(|running| &state.processes[usize::from(running)]);
    let given_up_next = running.and_then(|process| process.held.last().copied());
    let own = state.processes[usize::from(number)].held.first().copied();
    let gate = match (given_up_next, own) {
        (_, Some(gate)) if flaw == Some(Flaw::WaitsAtOwn) => usize::from(gate),
        (Some(gate), _) if rng.percent(60) => usize::from(gate),
        _ => rng.index(state.made.min(4)),
    };
    let gate = &mut state.gates[gate];
    let Some(holder) = gate.holder else {
        let cell = rng.index(CELLS);
        if place == Place::Cell && gate.cells[cell].is_none() {
            gate.cells[cell] = Some(number);
            return true;
        }
        let flawed = place == Place::Gate && flaw == Some(Flaw::OpenWithWaiter);
        if flawed {
            gate.queue.push_back(number);
        }
        return flawed;
    };
    if holder == number && flaw != Some(Flaw::WaitsAtOwn) {
        return false;
    }
    if place == Place::Gate {
        gate.queue.push_back(number);
        return true;
    }
    let cell = rng.index(CELLS);
    let free = gate.cells[cell].is_none();
    if free {
        gate.cells[cell] = Some(number);
    }
    free
}

pub fn record(rng: &mut Rng) -> u16 {
    match rng.below(3) {
        0 => rng.pick(&[0, 1, 2043, 2044, 2048, 2049, 4091, 4092]),
        1 => rng.range(0, 2044) as u16,
        _ => rng.range(2048, 4092) as u16,
    }
}

fn settle(rng: &mut Rng, state: &mut State, number: u8, place: Place, flaw: Option<Flaw>) {
    let process = &mut state.processes[usize::from(number)];
    let class = usize::from(process.class);
    match place {
        Place::Running => {}
        Place::Ready if flaw == Some(Flaw::ClassWhileReady) => state.ready[rng.index(CLASSES)].push_back(number),
        Place::Ready => state.ready[class].push_back(number),
        Place::Ended => process.ended = true,
        Place::Bell => state.bell.push_back(number),
        Place::Device => {
            let device = rng.index(DEVICES);
            if state.is_present(device) && state.devices[device].is_none() {
                let busy = Busy { process: number, operation: rng.below(4) as u8, record: record(rng) };
                state.devices[device] = Some(busy);
            } else {
                state.clock.push_back(number);
            }
        }
        Place::Gate | Place::Cell if sit(rng, state, number, place, flaw) => {}
        _ => state.clock.push_back(number),
    }
}

/// Where each process is, before gates are given.
fn places(rng: &mut Rng, created: usize, flaw: Option<Flaw>) -> Vec<Place> {
    let idles = flaw == Some(Flaw::ReadyWhileIdle);
    let somebody_runs = !idles && flaw != Some(Flaw::MarkWhileIdle) && rng.percent(93);
    let place = |rng: &mut Rng| match rng.below(16) {
        0..=3 if somebody_runs || idles => Place::Ready,
        0..=3 => Place::Clock,
        4..=7 => Place::Gate,
        8 | 9 => Place::Cell,
        10 => Place::Clock,
        11 | 12 => Place::Device,
        13 | 14 => Place::Bell,
        _ => Place::Ended,
    };
    let mut places: Vec<Place> = (0..created).map(|_| place(rng)).collect();
    if somebody_runs {
        places[if rng.percent(30) { 0 } else { rng.index(created) }] = Place::Running;
    }
    places
}

/// Every process goes to its place, in any order.
fn settle_all(rng: &mut Rng, state: &mut State, places: &[Place], flaw: Option<Flaw>) {
    let mut order: Vec<u8> = (0..places.len() as u8).collect();
    rng.shuffle(&mut order);
    order.into_iter().for_each(|number| settle(rng, state, number, places[usize::from(number)], flaw));
}

/// The count, near its end, and a mark of who runs.
fn turns(rng: &mut Rng, state: &mut State, flaw: Option<Flaw>) {
    state.count = match flaw {
        Some(Flaw::CountOver) => rng.pick(&[9, 10, 255]),
        _ => rng.pick(&[0, 0, 1, 5, 7, 7, 8, 8, 8]),
    };
    state.mark = flaw == Some(Flaw::MarkWhileIdle) || state.running.is_some() && rng.percent(35);
}

/// A sound state, or one with the flaw.
pub fn state(rng: &mut Rng, length: u16, flaw: Option<Flaw>) -> State {
    let mut state = State::fresh(length, rng.pick(&[31, 31, 31, 30, 1, 0, 21]), 0);
    let created = rng.pick(&[1, 2, 3, 4, 5, 6, 7, 9, 9, 10, 10]);
    state.made = rng.pick(&[0, 1, 2, 4, 9, 9, 12, 24, 25, 25]);
    state.running = None;
    state.processes.resize(created, Process::new(0, 0));
    let places = places(rng, created, flaw);
    for (process, place) in state.processes.iter_mut().zip(&places) {
        let may_work = matches!(place, Place::Running | Place::Ready) || flaw == Some(Flaw::JobWaits);
        process.in_job = may_work && rng.percent(35);
        process.class = rng.pick(&[1, 2, 2]);
        registers(rng, process, length);
    }
    hold(rng, &mut state, &places, flaw);
    state.running = places.iter().position(|&place| place == Place::Running).map(|number| number as u8);
    settle_all(rng, &mut state, &places, flaw);
    turns(rng, &mut state, flaw);
    state.fraction = rng.pick(&[0, 10, 5000, 9_980, 9_990, 9_990]);
    state.seconds = rng.pick(&[0, 1, 77, 32_766, 32_767, 32_767]);
    state.stop_line = rng.below(3) as u16;
    if rng.percent(3) {
        state.stop = Some(rng.below(10) as u8);
    }
    state
}
