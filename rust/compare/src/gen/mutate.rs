//! One word of the 822 changed, to break soundness or to keep it.

use super::edgy;
use crate::rng::Rng;
use model::words::{self, *};

const SECONDS: usize = TAIL_AT + 5;
const SLICE: usize = 12;

/// A place among the 822 words and a value near some edge.
pub fn word(rng: &mut Rng, state: &[u16]) -> (usize, u16) {
    let created = usize::from(state[CREATED_AT]).clamp(1, 10);
    let made = usize::from(state[TAIL_AT + 2]).clamp(1, 25);
    let at = match rng.below(10) {
        0..=3 => rng.index(created * PROCESS_WORDS),
        4..=5 => GATES_AT + rng.index(made * GATE_WORDS),
        6 => READY_AT + rng.index(DEVICES_AT - READY_AT),
        7 => DEVICES_AT + rng.index(TAIL_AT - DEVICES_AT),
        8 => TAIL_AT + rng.index(WORDS - TAIL_AT),
        _ => rng.index(WORDS),
    };
    let old = state[at];
    let value = match rng.below(8) {
        0 => old.wrapping_add(1),
        1 => old.wrapping_sub(1),
        2 => rng.below(11) as u16,
        3 => rng.pick(&[0, 1, 10, 190, 200, 255, 256, 1024, 1025, 9_990, 10_000, 32_767, 32_768]),
        4 => state[rng.index(WORDS)],
        5 => old ^ 1 << rng.below(16),
        _ => edgy(rng),
    };
    (at, value)
}

/// A holder with a list that agrees, whatever else he does.
fn made_holder(state: &[u16], me: usize, gate: usize) -> Vec<(usize, u16)> {
    let record = me * PROCESS_WORDS;
    let holds = state[record + 14].min(7);
    let list = record + 15 + usize::from(holds);
    let gate_at = GATES_AT + gate * GATE_WORDS;
    vec![(gate_at, me as u16), (record + 14, holds + 1), (list, gate as u16), (record + 13, 0)]
}

/// A job wherever the process is.
fn made_job(rng: &mut Rng, state: &[u16], record: usize) -> Vec<(usize, u16)> {
    let s = state[record + 2];
    let over = rng.below(2) as u16;
    let words = 4096u16.saturating_sub(s) + over;
    vec![
        (record + 5, 1),
        (record + 4, s),
        (record + 3, s),
        (record + 6, s),
        (record + 7, rng.pick(&[s, 4096, 4097, s.wrapping_sub(1)])),
        (record + 8, rng.pick(&[0, state[LENGTH_AT], state[LENGTH_AT] + 1])),
        (record + 9, words),
        (record + 10, rng.pick(&[0, 15, 16, 255, 256])),
    ]
}

/// A change of several words after which the state is nearly sound: only a
/// sentence about the whole can catch it.
pub fn several(rng: &mut Rng, state: &[u16]) -> Vec<(usize, u16)> {
    let created = usize::from(state[CREATED_AT]).clamp(1, 10);
    let me = rng.index(created);
    let record = me * PROCESS_WORDS;
    let number = me as u16;
    let append = |at: usize, member: u16| {
        let length = state[at].min(9);
        vec![(at, length + 1), (at + 1 + usize::from(length), member)]
    };
    let gate = rng.index(usize::from(state[TAIL_AT + 2]).clamp(1, 25));
    let gate_at = GATES_AT + gate * GATE_WORDS;
    match rng.below(10) {
        // In a second place.
        0 => append(READY_AT + rng.index(5) * QUEUE_WORDS, number),
        1 => append(gate_at + 1, number),
        2 => vec![(gate_at + 12 + rng.index(8), number)],
        3 => vec![(record + 23, 1)],
        4 => made_holder(state, me, gate),
        5 => made_job(rng, state, record),
        // Two lists change their members.
        6 => {
            let one = READY_AT + rng.index(5) * QUEUE_WORDS + 1;
            let other = READY_AT + rng.index(5) * QUEUE_WORDS + 1;
            vec![(one, state[other]), (other, state[one])]
        }
        // Somebody else runs.
        7 => vec![(TAIL_AT, number)],
        8 => vec![(MARK_AT, 1), (COUNT_AT, rng.below(10) as u16)],
        _ => vec![(TAIL_AT, 10)],
    }
}

/// The running process's slice, if somebody runs.
pub fn slice(state: &[u16], value: u16) -> Option<(usize, u16)> {
    let running = usize::from(state[TAIL_AT]);
    (running <= 9).then_some((running * PROCESS_WORDS + SLICE, value))
}

/// A change that keeps a sound state sound and brings an edge near.
pub fn nudge(rng: &mut Rng, state: &[u16]) -> (usize, u16) {
    match rng.below(6) {
        0 => (FRACTION_AT, rng.pick(&[9_970, 9_980, 9_990])),
        1 => (SECONDS, rng.pick(&[32_766, 32_767])),
        2 => slice(state, rng.pick(&[180, 190])).unwrap_or((FRACTION_AT, 9_990)),
        3 => (COUNT_AT, rng.pick(&[7, 8, 8])),
        4 => (MARK_AT, u16::from(state[TAIL_AT] <= 9)),
        _ => (rng.index(usize::from(state[CREATED_AT]).clamp(1, 10)) * PROCESS_WORDS + SLICE, 190),
    }
}

pub fn describe(changes: &[(usize, u16)]) -> String {
    let each: Vec<String> = changes.iter().map(|&(at, value)| format!("{} := {value}", words::field(at))).collect();
    each.join(", ")
}
