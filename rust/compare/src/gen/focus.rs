//! One instruction at a time: random code in which the running process stands
//! before an instruction whose operands are likely to fit it.

use super::{edgy, states};
use crate::rng::Rng;
use model::exec::{ARGUMENTS, CALLPROG, CASEJUMP, EXITPROG, FALSEJUMP, KTRAP, LAST_CODE};
use model::state::*;

/// A word to store: an address as the running process sees it, and its value.
pub type Store = (u16, u16);

/// Operands at which some arithmetic goes over or changes its sign.
const PAIRS: [(i32, i32); 16] = [
    (32_767, 1),
    (32_766, 1),
    (-32_768, 1),
    (-32_768, -1),
    (-1, -32_768),
    (-32_768, -32_768),
    (32_767, -32_768),
    (-7, 3),
    (7, -3),
    (-7, -3),
    (-6, 3),
    (7, 0),
    (181, 181),
    (182, 181),
    (256, -128),
    (256, 128),
];

pub struct Scene {
    pub code: Vec<u16>,
    pub state: State,
    pub stores: Vec<Store>,
}

fn target(rng: &mut Rng, length: u32) -> u16 {
    match rng.below(10) {
        0 => length as u16,
        1 => edgy(rng),
        _ => rng.below(length) as u16,
    }
}

fn bounds(rng: &mut Rng) -> [u16; 2] {
    let low = if rng.percent(70) { rng.range(-8, 8) as u16 } else { edgy(rng) };
    let high = if rng.percent(80) { low.wrapping_add(rng.below(12) as u16) } else { edgy(rng) };
    [low, high]
}

/// One instruction for code of `length` words.
pub fn instruction(rng: &mut Rng, op: u16, length: u32) -> Vec<u16> {
    let small = rng.below(6) as u16;
    let mut words = vec![op];
    match op {
        6 => {
            words.extend(bounds(rng));
            words.push(rng.pick(&[0, 1, 2, 7, 300, 32_768, 65_535]));
        }
        7 => words.extend(bounds(rng)),
        20 | FALSEJUMP | 23 => words.push(target(rng, length)),
        CASEJUMP => {
            let count = if rng.percent(92) { small } else { edgy(rng) };
            words.push(bounds(rng)[0]);
            if rng.percent(25) {
                words[1] = rng.pick(&[32_767, 32_766, 32_764]);
            }
            words.push(count);
            words.extend((0..small).map(|_| target(rng, length)));
        }
        24 | 25 if rng.percent(75) => words.push(small),
        CALLPROG => {
            words.push(target(rng, length));
            words.push(if rng.percent(80) { small } else { edgy(rng) });
        }
        KTRAP => words.push(if rng.percent(96) { rng.below(12) as u16 } else { edgy(rng) }),
        _ => words.extend((0..ARGUMENTS[usize::from(op.min(LAST_CODE))]).map(|_| edgy(rng))),
    }
    words
}

/// What a scene is about.
#[derive(Clone, Copy, PartialEq)]
enum Theme {
    Anything,
    Job,
    Gates,
    Kernel,
}

/// An instruction that the theme's process is likely to get through.
fn themed(rng: &mut Rng, theme: Theme, length: u32) -> Vec<u16> {
    let stray = rng.percent(15);
    let op = match theme {
        Theme::Gates if !stray => return vec![KTRAP, rng.range(6, 10) as u16],
        Theme::Kernel if !stray => return vec![KTRAP, rng.pick(&[0, 1, 2, 3, 3, 3, 4, 5, 5, 11, 11, 11])],
        Theme::Job if !stray => match rng.below(39) {
            0..=25 => rng.below(26) as u16,
            26..=33 => FALSEJUMP,
            _ => EXITPROG,
        },
        _ => {
            if rng.percent(80) {
                rng.below(29) as u16
            } else {
                KTRAP
            }
        }
    };
    let op = if rng.percent(3) { edgy(rng) } else { op };
    instruction(rng, op, length)
}

/// Call 3's operands: as many words as there are, or one more, now and then.
fn new_process_operands(rng: &mut Rng, process: &Process, length: u32) -> Vec<u16> {
    let further = (process.b - process.s).saturating_sub(3);
    let edges = [further, further + 1];
    let v = if rng.percent(80) { rng.below(12) as u16 } else { edgy(rng) };
    let p = if rng.percent(80) { rng.below(u32::from(v) + 1) as u16 } else { edgy(rng) };
    let (v, p) = if rng.percent(25) { (1024, rng.pick(&edges)) } else { (v, p) };
    vec![target(rng, length), v, p]
}

fn stop_job_operands(rng: &mut Rng, state: &State) -> Vec<u16> {
    let at_work = state.processes.iter().position(|process| process.in_job);
    let number = match at_work {
        Some(number) if rng.percent(50) => number as u16,
        _ if rng.percent(80) => rng.below(state.processes.len() as u32) as u16,
        _ => edgy(rng),
    };
    let reason = rng.pick(&[15, 16, 17, 20, 100, 200, 255, 255, 256, 0x8010]);
    vec![reason, number]
}

/// A delay's or a continue's operands, on the latest gate more often than on another.
fn cell_operands(rng: &mut Rng, state: &State, gate: u16, call: u16) -> Vec<u16> {
    let cells = state.gates.get(usize::from(gate)).map(|gate| gate.cells).unwrap_or_default();
    let filled = cells.iter().position(Option::is_some);
    let cell = match filled {
        Some(cell) if rng.percent(if call == 9 { 60 } else { 20 }) => cell as u16,
        _ if rng.percent(90) => rng.below(8) as u16,
        _ => rng.pick(&[8, 9, 65_535, 32_768]),
    };
    vec![cell, gate]
}

/// Call 11's operands, and the first words of its record.
fn request_operands(rng: &mut Rng, state: &State) -> (Vec<u16>, Vec<Store>) {
    let ringing = state.devices[0].is_some() && rng.percent(25);
    let record = match rng.percent(80) {
        true => states::record(rng),
        false => rng.pick(&[2045, 2046, 2047, 4093, 4094, 4095, 4096, 65_535, 32_768]),
    };
    let (device, operation) = match ringing {
        true => (0, 3),
        false if rng.percent(85) => (rng.below(5) as u16, rng.below(4) as u16),
        false => (edgy(rng), edgy(rng)),
    };
    (vec![record, device], vec![(record, operation), (record.wrapping_add(1), 9)])
}

/// The operands of a kernel call, the top first, and a record's words.
fn call_operands(rng: &mut Rng, state: &State, me: usize, call: u16, length: u32) -> (Vec<u16>, Vec<Store>) {
    let process = &state.processes[me];
    let made = state.made as u32;
    let latest = process.held.last().map(|&gate| u16::from(gate));
    let any_gate = |rng: &mut Rng| if rng.percent(85) { rng.below(made.max(1)) as u16 } else { edgy(rng) };
    let top = match call {
        2 => vec![if rng.percent(80) { rng.below(8) as u16 } else { edgy(rng) }],
        3 => new_process_operands(rng, process, length),
        5 => stop_job_operands(rng, state),
        6 => vec![any_gate(rng)],
        7 => vec![latest.filter(|_| rng.percent(80)).unwrap_or_else(|| any_gate(rng))],
        8 | 9 => {
            let gate = latest.filter(|_| rng.percent(85)).unwrap_or_else(|| any_gate(rng));
            cell_operands(rng, state, gate, call)
        }
        11 => return request_operands(rng, state),
        _ => Vec::new(),
    };
    (top, Vec::new())
}

/// An address at the ends of the job's region, or any.
fn pointer(rng: &mut Rng, process: &Process) -> u16 {
    let floor = process.floor() as u16;
    let end = process.c.wrapping_add(process.saved.p);
    let edges = [floor - 1, floor, end.wrapping_sub(1), end, process.c - 1, process.c];
    if rng.percent(60) {
        rng.pick(&edges)
    } else {
        edgy(rng)
    }
}

/// What EXIT with `p` finds in the frame: an old B and a return.
fn frame(rng: &mut Rng, process: &Process, p: u16, length: u32) -> Vec<Store> {
    let after = (u32::from(process.b) + 2 + u32::from(p)) as u16;
    let c = process.c;
    let odd = edgy(rng);
    let old = rng.pick(&[after, after, c, c, after.wrapping_sub(1), c + 1, odd]);
    vec![(process.b, old), (process.b + 1, target(rng, length))]
}

fn operands(rng: &mut Rng, state: &State, me: usize, code: &[u16], at: usize) -> Vec<Store> {
    let process = &state.processes[me];
    let length = code.len() as u32;
    let arg = |place: usize| code.get(at + 1 + place).copied().unwrap_or(0);
    let mut stores = Vec::new();
    let top = match code[at] {
        2 => vec![pointer(rng, process)],
        3 => vec![edgy(rng), pointer(rng, process)],
        6 | 7 => {
            let (low, high) = (arg(0), arg(1));
            let edges = [low.wrapping_sub(1), low, low.wrapping_add(1), high, high.wrapping_add(1)];
            vec![if rng.percent(85) { rng.pick(&edges) } else { edgy(rng) }, edgy(rng)]
        }
        9..=19 if rng.percent(40) => {
            let (left, right) = rng.pick(&PAIRS);
            vec![right as u16, left as u16]
        }
        FALSEJUMP => vec![rng.pick(&[0, 0, 1, 2, 65_535])],
        CASEJUMP => vec![arg(0).wrapping_add(rng.range(-1, 6) as u16)],
        25 => {
            stores.extend(frame(rng, process, arg(0), length));
            Vec::new()
        }
        KTRAP => {
            let (top, record) = call_operands(rng, state, me, arg(0), length);
            stores.extend(record);
            top
        }
        _ => vec![edgy(rng), edgy(rng)],
    };
    // The operands last: a record may lie on the stack.
    stores.extend(top.iter().zip(process.s..).map(|(&word, address)| (address, word)));
    stores.retain(|&(address, _)| address < TOP);
    stores
}

/// `me` runs, and who ran so far takes its place among the ready if the
/// classes allow it.
fn swap_running(state: &mut State, me: u8) {
    let Some(running) = state.running.filter(|&running| running != me) else { return };
    let class = |number: u8| usize::from(state.processes[usize::from(number)].class);
    let (from, to) = (class(me), class(running));
    state.ready[from].retain(|&number| number != me);
    state.ready[to].push_back(running);
    state.running = Some(me);
}

/// The code of a scene, and where its instructions start.
fn scene_code(rng: &mut Rng, theme: Theme) -> (Vec<u16>, Vec<usize>) {
    let parts = rng.range(1, 8);
    let length_guess = 2 + 3 * parts as u32;
    let mut code = Vec::new();
    let mut starts = Vec::new();
    for _ in 0..parts {
        starts.push(code.len());
        code.extend(themed(rng, theme, length_guess));
    }
    // Arguments that are missing at the end.
    if rng.percent(12) && code.len() > 1 {
        code.truncate(code.len() - 1);
    }
    starts.retain(|&start| start < code.len());
    (code, starts)
}

/// A process that runs or may run, for which the code was made: in a job or outside, holding gates or not.
fn fitting(state: &State, theme: Theme) -> Option<u8> {
    let fits = |number: &u8| {
        let process = &state.processes[usize::from(*number)];
        process.in_job == (theme == Theme::Job) && (theme != Theme::Gates || !process.held.is_empty())
    };
    state.running.iter().chain(state.ready.iter().flatten()).copied().find(fits)
}

pub fn scene(rng: &mut Rng) -> Scene {
    let theme = rng.pick(&[Theme::Anything, Theme::Anything, Theme::Job, Theme::Job, Theme::Gates, Theme::Kernel]);
    let (code, starts) = scene_code(rng, theme);
    let flaw = rng.percent(9).then(|| rng.pick(&states::FLAWS));
    let mut state = states::state(rng, code.len() as u16, flaw);
    let mut stores = Vec::new();
    if let Some(running) = state.running {
        let me = fitting(&state, theme).unwrap_or(running);
        swap_running(&mut state, me);
        let at = rng.pick(&starts);
        let process = &mut state.processes[usize::from(me)];
        if rng.percent(95) {
            process.address = at as u16;
        }
        // Words enough for the operands, more often than the registers give.
        let floor = process.floor() as u16;
        if rng.percent(75) {
            process.s = process.b.saturating_sub(rng.below(14) as u16).max(floor);
        }
        stores = operands(rng, &state, usize::from(me), &code, at);
    }
    Scene { code, state, stores }
}
