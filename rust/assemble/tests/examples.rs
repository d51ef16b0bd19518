//! Each example's image is what its listing gives, and does what its listing says.

use plumbsorrel::{End, Machine, Ran, Record, Refusal, Stop};
use std::fs;
use std::path::PathBuf;

const EXAMPLES: &str = "examples";

/// The images of the program that runs images, beside the examples.
const TRIALS: &str = "crates/runner/data";

fn place(folder: &str) -> PathBuf {
    PathBuf::from(env!("CARGO_MANIFEST_DIR")).join("../..").join(folder)
}

fn names(folder: &str, extension: &str) -> Vec<String> {
    let files = fs::read_dir(place(folder)).expect("the folder is there").map(|entry| entry.expect("a file").path());
    let those = files.filter(|path| path.extension().is_some_and(|end| end == extension));
    let mut names: Vec<String> =
        those.map(|path| path.file_stem().expect("a name").to_string_lossy().into_owned()).collect();
    names.sort();
    names
}

fn image(folder: &str, name: &str) -> Vec<u8> {
    fs::read(place(folder).join(name).with_extension("image")).expect("the image is there")
}

fn load(name: &str) -> Machine {
    Machine::load(&image(EXAMPLES, name)).expect("the image is good")
}

#[test]
fn every_image_is_what_its_listing_gives() {
    assert_eq!(names(EXAMPLES, "image"), names(EXAMPLES, "list"));
    assert_eq!(names(EXAMPLES, "list").len(), 5, "the five of this file");
    assert_eq!(names(TRIALS, "list").len(), 4, "what no example shows");
    for folder in [EXAMPLES, TRIALS] {
        for name in names(folder, "list") {
            let listing = fs::read_to_string(place(folder).join(&name).with_extension("list")).expect("a text");
            assert!(assemble::image(&listing) == Ok(image(folder, &name)), "{name}");
        }
    }
}

/// Ticks an idle machine until its second is over: 1,000 ticks, and nothing runs before the last.
fn wait_for_the_second(machine: &mut Machine) {
    for _ in 0..999 {
        machine.tick().expect("it goes on");
        assert_eq!(machine.run(1), Ok(Ran { end: End::Idle, count: 0 }));
    }
    machine.tick().expect("it goes on");
    assert_eq!(machine.seconds(), 1);
}

#[test]
fn the_watchdog_stops_the_job() {
    let mut machine = load("watchdog");
    for _ in 0..1000 {
        assert_eq!(machine.run(100), Ok(Ran { end: End::Budget, count: 100 }));
        machine.tick().expect("it goes on");
    }
    assert_eq!(machine.seconds(), 1);
    assert_eq!(machine.run(100).map(|ran| ran.end), Ok(End::Stopped));
    assert_eq!(machine.stop(), Some(Stop { number: 0, line: 22 }));
    assert_eq!(machine.common()[..3], [20, 1, 0]);
    assert_eq!(machine.tick(), Err(Refusal::Stopped));
}

#[test]
fn the_second_waits_at_the_gate() {
    let mut machine = load("gate");
    // 4 and 7 of process 0 up to its third line, 2 to its wait, 4 of process 1 to the gate.
    assert_eq!(machine.run(100), Ok(Ran { end: End::Idle, count: 17 }));
    assert_eq!(machine.common()[..3], [0, 0, 0]);
    wait_for_the_second(&mut machine);
    assert_eq!(machine.run(1000).map(|ran| ran.end), Ok(End::Idle));
    assert_eq!(machine.common()[..4], [2, 100, 101, 0]);
    assert_eq!((machine.stop(), machine.is_sound()), (None, true));
}

#[test]
fn the_taker_is_delayed_and_continued() {
    let mut machine = load("delay");
    assert_eq!(machine.run(1000).map(|ran| ran.end), Ok(End::Idle));
    assert_eq!(machine.common()[..4], [0, 42, 42, 0]);
    assert_eq!((machine.stop(), machine.is_sound()), (None, true));
}

/// Process 0 alone runs. Up to its job it has 4 instructions; the job has 13 for each divisor from 2 to 58, 6 for 59
/// and 1 to end; 18 lead to the wait, 4 to the printer, 4 to the stop.
#[test]
fn the_job_finds_the_divisor() {
    let mut machine = load("job");
    assert_eq!(machine.run(10_000), Ok(Ran { end: End::Idle, count: 4 + 57 * 13 + 7 + 18 }));
    wait_for_the_second(&mut machine);
    assert_eq!(machine.record(3), Err(Refusal::Device));
    assert_eq!(machine.run(10_000), Ok(Ran { end: End::Started(3), count: 4 }));
    assert_eq!(machine.record(3), Ok(Record { operation: 1, status: 0, arg: 59, unit: 0 }));
    assert_eq!(machine.done(3, 5, 77), Ok(()));
    assert_eq!(machine.run(10_000), Ok(Ran { end: End::Stopped, count: 4 }));
    assert_eq!(machine.stop(), Some(Stop { number: 5, line: 6 }));
    assert_eq!(machine.common()[0], 0);
}

/// The two that hand the gate on are selected every few instructions, and the ninth selection is the health test's.
#[test]
fn the_health_test_does_not_starve() {
    let mut machine = load("health");
    assert_eq!(machine.run(1000).map(|ran| ran.end), Ok(End::Idle));
    assert_eq!(machine.common()[0], 0);
    wait_for_the_second(&mut machine);
    for second in 1..=3 {
        assert_eq!(machine.seconds(), second);
        assert_eq!(machine.run(200), Ok(Ran { end: End::Budget, count: 200 }));
        assert_eq!(machine.common()[0], second);
        (0..1000).for_each(|_| machine.tick().expect("it goes on"));
    }
}
