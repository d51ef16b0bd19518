//! Bodies of jobs: those that end, those that only a stop ends, and bad ones.

use super::asm::*;
use super::{edgy, focus};
use crate::rng::Rng;

/// Emits one job's body and answers its label.
pub fn body(rng: &mut Rng, asm: &mut Asm, p: u16) -> Label {
    let start = asm.here();
    asm.op(NEWLINE, &[900 + rng.below(50) as u16]);
    match rng.below(9) {
        0 => touch_words(rng, asm, p),
        1 | 2 => wait_for_stop(rng, asm),
        3 => count_down(rng, asm),
        4 => fault(rng, asm),
        // Deeper until there is no room.
        5 => {
            let deeper = asm.here();
            asm.op(ENTER, &[rng.pick(&[0, 1, 40, 300])]);
            asm.to(CALL, deeper);
        }
        6 => {
            for _ in 0..rng.range(1, 10) {
                let op = rng.below(30) as u16;
                for word in focus::instruction(rng, op, 200) {
                    asm.op(word, &[]);
                }
            }
        }
        7 => procedure(rng, asm, p),
        _ => {}
    }
    asm.op(EXITPROG, &[]);
    start
}

fn touch_words(rng: &mut Rng, asm: &mut Asm, p: u16) {
    for place in 0..p + u16::from(rng.percent(10)) {
        asm.op(LOCALADDR, &[place]);
        asm.op(LOCALADDR, &[place]);
        asm.op(PUSHIND, &[]);
        asm.push(3);
        asm.op(rng.pick(&[ADD, SUB, MUL, MOD]), &[]);
        asm.op(COPYWORD, &[]);
    }
}

/// A loop that only a stop (or an unlucky word) leaves.
fn wait_for_stop(rng: &mut Rng, asm: &mut Asm) {
    let top = asm.here();
    let out = asm.label();
    asm.op(NEWLINE, &[rng.below(99) as u16]);
    asm.push(rng.pick(&[1, 1, 2, 65_535]));
    asm.to(FALSEJUMP, out);
    asm.to(JUMP, top);
    asm.place(out);
    asm.push(7);
}

/// A loop without a FALSEJUMP: a stop shows only at EXITPROG or a fault.
fn count_down(rng: &mut Rng, asm: &mut Asm) {
    let rounds = rng.range(2, 12) as u16;
    asm.push(rounds);
    let top = asm.here();
    let out = asm.label();
    asm.push(1);
    asm.op(SUB, &[]);
    asm.op(LOCALADDR, &[65_535]);
    asm.op(PUSHIND, &[]);
    asm.op(CASEJUMP, &[0, rounds]);
    asm.target(out);
    for _ in 1..rounds {
        asm.target(top);
    }
    asm.place(out);
    if rng.percent(30) {
        asm.op(rng.pick(&[99, RANGE, 15]), &[1, 0]);
    }
}

fn fault(rng: &mut Rng, asm: &mut Asm) {
    match rng.below(8) {
        0 => {
            asm.push(32_767);
            asm.push(1);
            asm.op(ADD, &[]);
        }
        1 => {
            asm.push(rng.pick(&[0, 2047, 2048, 4095, 65_535]));
            asm.op(PUSHIND, &[]);
        }
        2 => {
            asm.push(11);
            asm.op(RANGE, &[1, 10]);
        }
        3 => asm.op(ENTER, &[rng.pick(&[2047, 2048, 65_535])]),
        4 => asm.call(rng.below(12) as u16),
        5 => {
            let place = asm.here();
            asm.to(CALLPROG, place);
            asm.op(0, &[]);
        }
        6 => asm.op(JUMP, &[edgy(rng)]),
        _ => {
            asm.push(edgy(rng));
            asm.push(edgy(rng));
            asm.op(COPYWORD, &[]);
        }
    }
}

fn procedure(rng: &mut Rng, asm: &mut Asm, p: u16) {
    let (inner, after) = (asm.label(), asm.label());
    (0..p).for_each(|word| asm.push(word));
    asm.to(CALL, inner);
    asm.to(JUMP, after);
    asm.place(inner);
    asm.op(ENTER, &[rng.below(5) as u16]);
    asm.op(LOCALADDR, &[2]);
    asm.op(POP, &[]);
    asm.op(EXIT, &[if rng.percent(90) { p } else { p + 1 }]);
    asm.place(after);
}
