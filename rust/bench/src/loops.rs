//! Loops of instructions, and of gate calls, within one run.

use crate::best;
use crate::interpreter::Process;
use crate::side::{Offer, Side};
use crate::world::{refusal, World};

const LOOPS: [(&str, &[u16]); 3] = [
    // NEWLINE, PUSHCONST 5, PUSHCONST 3, SUB, PUSHCONST 1, LESS, FALSEJUMP
    ("arithmetic and jumps", &[0, 1, 1, 5, 1, 3, 13, 1, 1, 17, 21, 0]),
    // PUSHCONST, CALL, JUMP; ENTER 2, EXIT 1
    ("calls and frames", &[1, 9, 23, 6, 20, 0, 24, 2, 25, 1]),
    // a word of the common store read, OR, written; one of the own part read; INDEX
    ("store access", &[1, 100, 1, 100, 2, 1, 1, 10, 3, 4, 65535, 2, 5, 1, 2048, 1, 2, 6, 1, 10, 2, 5, 20, 0]),
];

// new gate, left; then PUSHCONST 0, enter, PUSHCONST 0, leave, JUMP: two calls in five instructions
const GATES: (&str, &[u16]) = ("enter and leave", &[28, 10, 28, 7, 1, 0, 28, 6, 1, 0, 28, 7, 20, 4]);

/// A run of the library or of the interpreter that takes all kinds of instruction.
fn run(side: &mut Side, w: &mut World, budget: u32) {
    let answer = side.offer(w, Offer::Run(budget));
    assert_eq!((refusal(answer), answer >> 32), (0, u64::from(budget)), "the run is taken, to its budget");
}

/// A burst of the interpreter that was written for speed, and knows no kernel call.
fn burst(w: &mut World, budget: u32) {
    let mut p = Process {
        code: &w.code,
        common: &mut w.common,
        own: &mut w.private[..2048],
        address: 0,
        line: 0,
        s: 4096,
        b: 4096,
        c: 4096,
        floor: 2048,
        holding: false,
        job: None,
    };
    assert_eq!(p.burst(budget).0, budget);
}

pub fn names() -> impl Iterator<Item = &'static str> {
    LOOPS.iter().map(|&(name, _)| name).chain([GATES.0])
}

/// One row on one side; false where no row has the name.
pub fn count(side: &mut Side, name: &str, rounds: u32) -> bool {
    if name == GATES.0 {
        run(side, &mut World::loaded(GATES.1, 0), rounds);
        return true;
    }
    let Some((_, code)) = LOOPS.iter().find(|row| row.0 == name) else { return false };
    let mut w = World::loaded(code, 0);
    match side {
        Side::Proved => run(side, &mut w, rounds),
        Side::Plain(_) => burst(&mut w, rounds),
    }
    true
}

pub fn table() {
    const BUDGET: u32 = 20_000_000;
    println!("{:<34} {:>12} {:>12} {:>7}", "one run, M instructions/s", "proved", "plain Rust", "ratio");
    for (name, code) in LOOPS {
        let loaded = World::loaded(code, 0);
        let (mut a, mut b) = (loaded.clone(), loaded.clone());
        run(&mut Side::Proved, &mut a, 100_003);
        burst(&mut b, 100_003);
        assert_eq!((a.common, a.private), (b.common, b.private), "{name}: the two differ");
        let x = 1e3 / best(BUDGET, |n| run(&mut Side::Proved, &mut loaded.clone(), n));
        let y = 1e3 / best(BUDGET, |n| burst(&mut loaded.clone(), n));
        println!("{name:<34} {x:>12.0} {y:>12.0} {:>7.2}", x / y);
    }
    println!();
    println!("{:<34} {:>12} {:>12} {:>7}", "a loop of gate calls, ns a call", "proved", "plain Rust", "ratio");
    let loaded = World::loaded(GATES.1, 0);
    // two calls in five instructions
    let call = |side: &mut Side| 2.5 * best(1_000_000, |n| run(side, &mut loaded.clone(), n));
    let (x, y) = (call(&mut Side::Proved), call(&mut Side::plain()));
    println!("{:<34} {x:>12.1} {y:>12.1} {:>7.2}", GATES.0, y / x);
}
