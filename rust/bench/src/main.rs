//! What the proved library costs beside plain Rust: loops of instructions, kernel calls, events and images, in one process.
//!
//!     bench                          the tables
//!     bench images                   the table of images alone
//!     bench names                    what can be counted
//!     bench count SIDE NAME ROUNDS   one side, one row, for a count of the processor's instructions

mod calls;
mod images;
mod interpreter;
mod loops;
mod side;
mod world;

use side::Side;
use std::time::Instant;

/// Nanoseconds a round, the best of seven.
fn best(rounds: u32, mut work: impl FnMut(u32)) -> f64 {
    let once = |work: &mut dyn FnMut(u32)| {
        let begun = Instant::now();
        work(rounds);
        begun.elapsed().as_secs_f64() * 1e9 / f64::from(rounds)
    };
    (0..7).map(|_| once(&mut work)).fold(f64::INFINITY, f64::min)
}

fn main() {
    let arguments: Vec<String> = std::env::args().skip(1).collect();
    let arguments: Vec<&str> = arguments.iter().map(String::as_str).collect();
    match arguments[..] {
        [] => {
            loops::table();
            println!();
            calls::table();
            println!();
            images::table();
        }
        ["images"] => images::table(),
        ["names"] => loops::names().chain(calls::names()).chain(images::names()).for_each(|name| println!("{name}")),
        ["count", side, name, rounds] => {
            let mut side = if side == "proved" { Side::Proved } else { Side::plain() };
            let rounds = rounds.parse().expect("a number of rounds");
            if !loops::count(&mut side, name, rounds) && !images::count(&side, name, rounds) {
                calls::count(&mut side, name, rounds);
            }
        }
        _ => eprintln!("bench | bench images | bench names | bench count proved|plain NAME ROUNDS"),
    }
}
