//! Counts of what a comparison exercised.

use super::sound::Sentence;

#[derive(Clone, Copy, PartialEq, Eq)]
pub enum Group {
    Load,
    Step,
    Run,
    Tick,
    Bell,
    Done,
    Write,
    Record,
    IsSound,
    RunEnd,
    StepEnd,
    Code,
    Call,
    Fault,
    Stop,
    JobFault,
    JobEnd,
    StopJob,
    Gate,
    Request,
    Started,
    SliceEnd,
    ClockWoken,
    BellWoken,
    Moves,
    Selection,
    ByCount,
    MarkHolds,
    MarkKept,
    MarkEnd,
    Bound0,
    Longest0,
    Bound2,
    Longest2,
    Unsound,
    LeftUnsound,
}

const GROUPS: usize = Group::LeftUnsound as usize + 1;
const PLACES: usize = 32;
const _: () = assert!(Sentence::NAMES.len() <= PLACES);

#[derive(Clone, Copy)]
pub enum JobEnd {
    Exit,
    ExitWithStop,
    Stopped,
    Fault,
    FaultWithStop,
    NoRoom,
}

pub enum GateMove {
    Entered,
    Waited,
    PassedOn,
    Opened,
    Continued,
}

pub enum Request {
    Bell,
    /// A bell wait while the terminal is busy: the place behind `Bell`.
    #[allow(dead_code)]
    BellWhileBusy,
    Absent,
    Busy,
}

/// Places behind the three classes.
pub enum Selection {
    /// A displaced process takes itself again.
    ItselfAgain = 3,
    /// The best class at the count of 8, class 2 being empty.
    EmptyAtEight,
}

#[derive(Clone, Copy)]
pub enum MarkEnd {
    SliceToTail,
    SliceRunsOn,
    Clock,
    Gate,
    Delay,
    Bell,
    Device,
    End,
    NewProcess,
}

/// A group's title, its places' names (numbers if there are none), and the
/// places that a whole comparison must have reached.
type Sheet = (Group, &'static str, &'static [&'static str], &'static [usize]);

const SHEETS: [Sheet; GROUPS] = [
    (Group::Load, "load, by refusal (0: taken)", &[], &[0, 1, 2, 3, 4, 5, 6, 10]),
    (Group::Step, "step, by refusal", &[], &[0, 6, 7, 8]),
    (Group::Run, "run, by refusal", &[], &[0, 6, 7, 8]),
    (Group::Tick, "tick, by refusal", &[], &[0, 7, 8]),
    (Group::Bell, "bell, by refusal", &[], &[0, 7, 8]),
    (Group::Done, "done, by refusal", &[], &[0, 6, 7, 8, 9]),
    (Group::Write, "write, by refusal", &[], &[0, 3, 6, 10]),
    (Group::Record, "record, by refusal", &[], &[0, 6, 7, 9, 10]),
    (Group::IsSound, "is_sound, by answer", &[], &[0, 1]),
    (Group::RunEnd, "run ends", &["budget", "idle", "device start", "stop"], &[0, 1, 2, 3]),
    (Group::StepEnd, "step ends", &["onward", "idle", "device start", "stop"], &[0, 1, 2, 3]),
    (
        Group::Code,
        "instructions without fault",
        &[],
        &[0, 1, 2, 3, 4, 5, 6, 7, 8, 9, 10, 11, 12, 13, 14, 15, 16, 17, 18, 19, 20, 21, 22, 23, 24, 25, 26, 27, 28],
    ),
    (Group::Call, "kernel calls without fault", &[], &[0, 1, 2, 3, 4, 5, 6, 7, 8, 9, 10, 11]),
    (Group::Fault, "faults outside jobs", &[], &[1, 2, 3, 6, 7, 8, 9]),
    (Group::Stop, "stops", &[], &[0, 1, 2, 3, 4, 5, 6, 7, 8, 9]),
    (Group::JobFault, "faults in jobs", &[], &[1, 2, 3, 6, 7]),
    (
        Group::JobEnd,
        "job ends",
        &["exit", "exit, stop pending", "stopped at FALSEJUMP", "fault", "fault, stop pending", "no room"],
        &[0, 1, 2, 3, 4, 5],
    ),
    (Group::StopJob, "answers of call 5", &[], &[0, 1, 2, 3, 4]),
    (Group::Gate, "gate moves", &["entered open", "waited", "passed on", "opened", "continued"], &[0, 1, 2, 3, 4]),
    (
        Group::Request,
        "requests not started",
        &["bell wait", "bell wait, terminal busy", "absent", "busy"],
        &[0, 1, 2, 3],
    ),
    (
        Group::Started,
        "requests started (device, operation)",
        &[
            "0,0", "0,1", "0,2", "0,3", "1,0", "1,1", "1,2", "1,3", "2,0", "2,1", "2,2", "2,3", "3,0", "3,1", "3,2",
            "3,3", "4,0", "4,1", "4,2", "4,3",
        ],
        &[0, 1, 2, 4, 5, 6, 7, 8, 9, 10, 11, 12, 13, 14, 15, 16, 17, 18, 19],
    ),
    (Group::SliceEnd, "slice ends going to the tail, by class", &[], &[0, 2]),
    (Group::ClockWoken, "seconds by waiters woken (3: or more)", &[], &[0, 1, 2, 3]),
    (Group::BellWoken, "bells by waiters woken (3: or more)", &[], &[0, 1, 2, 3]),
    (
        Group::Moves,
        "moves",
        &[
            "preempted",
            "class 1 fell",
            "argument stored",
            "device ended for a holder",
            "child of a parent with others ready",
            "child of a lone parent",
        ],
        &[0, 1, 2, 3, 4, 5],
    ),
    (
        Group::Selection,
        "selections from",
        &["class 0", "class 1", "class 2", "class 2, itself again", "a better class at 8, class 2 empty"],
        &[0, 1, 2, 3, 4],
    ),
    (Group::ByCount, "selections by the count, by the best class ready", &[], &[0, 1, 2]),
    (Group::MarkHolds, "a marked process kept the processor from class", &[], &[0, 1]),
    (Group::MarkKept, "marks kept over call", &[], &[1, 5, 6, 7, 9, 10, 11]),
    (
        Group::MarkEnd,
        "marks ended by",
        &[
            "slice, to the tail",
            "slice, running on",
            "clock wait",
            "shut gate",
            "delay",
            "bell wait",
            "device start",
            "end",
            "new process",
        ],
        &[0, 1, 2, 3, 4, 5, 6, 7, 8],
    ),
    (Group::Bound0, "class 0, ran at selection j + j/8 rounded up, by place j", &[], &[1, 2, 3, 4, 5, 6, 7, 8]),
    (Group::Longest0, "class 0, the most selections until it ran, by place", &[], &[]),
    (Group::Bound2, "class 2, ran at selection 9i, by place i", &[], &[1, 2, 3, 4, 5, 6, 7]),
    (Group::Longest2, "class 2, the most selections until it ran, by place", &[], &[]),
    (
        Group::Unsound,
        "unsound by",
        Sentence::NAMES,
        &[
            0, 1, 2, 3, 4, 5, 6, 7, 8, 9, 10, 11, 12, 13, 14, 15, 16, 17, 18, 19, 20, 21, 22, 23, 24, 25, 26, 27, 28,
            29, 30,
        ],
    ),
    (Group::LeftUnsound, "states left unsound by a taken offer", Sentence::NAMES, &[]),
];

#[derive(Clone)]
pub struct Tally([[u64; PLACES]; GROUPS]);

impl Default for Tally {
    fn default() -> Self {
        Tally([[0; PLACES]; GROUPS])
    }
}

impl Tally {
    pub fn add(&mut self, group: Group, place: usize) {
        if cfg!(feature = "faults") {
            self.0[group as usize][place] += 1;
        }
    }

    /// A largest value in place of a count.
    pub fn most(&mut self, group: Group, place: usize, value: u64) {
        if cfg!(feature = "faults") {
            let kept = &mut self.0[group as usize][place];
            *kept = value.max(*kept);
        }
    }

    pub fn count(&self, group: Group, place: usize) -> u64 {
        self.0[group as usize][place]
    }

    /// Whether a taken offer broke a sound state: the paper allows none to.
    pub fn has_broken_state(&self) -> bool {
        self.0[Group::LeftUnsound as usize].iter().any(|&count| count > 0)
    }

    /// The counts for a reader, and the kinds that did not occur but must.
    pub fn report(&self) -> (String, Vec<String>) {
        let mut text = String::new();
        let mut missing = Vec::new();
        for (group, title, names, must) in &SHEETS {
            let counts = &self.0[*group as usize];
            let name = |place: usize| names.get(place).map_or_else(|| place.to_string(), |name| name.to_string());
            let shown = (0..PLACES).filter(|place| counts[*place] > 0 || must.contains(place));
            let line: Vec<String> = shown.map(|place| format!("{} {}", name(place), counts[place])).collect();
            text.push_str(&format!("{title}: {}\n", line.join(" | ")));
            for &place in must.iter().filter(|&&place| counts[place] == 0) {
                missing.push(format!("{title}: {}", name(place)));
            }
        }
        (text, missing)
    }
}
