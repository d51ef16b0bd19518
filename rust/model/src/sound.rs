//! "A sound state", sentence by sentence.

use super::planted::Planted;
use super::state::*;

macro_rules! sentences {
    ($($variant:ident $name:literal,)*) => {
        /// The sentence that a state breaks.
        #[derive(Clone, Copy, Debug, PartialEq, Eq)]
        pub enum Sentence { $($variant,)* }

        impl Sentence {
            pub const ALL: &'static [Sentence] = &[$(Sentence::$variant,)*];

            pub const NAMES: &'static [&'static str] = &[$($name,)*];
        }
    };
}

sentences! {
    Packed "packing",
    OnePlace "one place",
    QueueRepeats "queue repeats",
    OpenWithWaiter "open with waiter",
    HeldAgrees "held agrees",
    WaitsAtOwn "waits at own",
    ClassByHolding "class by holding",
    ReadyWhileIdle "ready while idle",
    EndedHolds "ended holds",
    JobHolds "job holds",
    JobPlace "job place",
    WaiterHoldsEight "waiter holds eight",
    LowestNumbers "lowest numbers",
    OtherGates "other gates",
    Variables "variables",
    Header "header",
    Registers "registers",
    Address "address",
    OutsideJob "outside job",
    JobCeiling "job ceiling",
    JobSaved "job saved",
    JobWords "job words",
    JobAddress "job address",
    JobReason "job reason",
    Device "device",
    Slice "slice",
    Fraction "fraction",
    Seconds "seconds",
    StopNumber "stop number",
    Count "count",
    Mark "mark",
}

impl Sentence {
    pub fn name(self) -> &'static str {
        Sentence::NAMES[self as usize]
    }

    /// Whether the others can be looked at without this one. A process in two
    /// places of one queue is in two places, so that one says nothing alone.
    pub fn may_be_missed(self) -> bool {
        !matches!(self, Sentence::Packed | Sentence::LowestNumbers | Sentence::QueueRepeats)
    }
}

type Sound = Result<(), Sentence>;

struct Checker<'a> {
    state: &'a State,
    planted: Option<Planted>,
}

pub fn check(state: &State, planted: Option<Planted>) -> Sound {
    let checker = Checker { state, planted };
    checker.numbers()?;
    checker.queues()?;
    for (number, process) in state.processes.iter().enumerate() {
        checker.place(number as u8, process)?;
        checker.holdings(number as u8, process)?;
        checker.registers(process)?;
        if process.in_job {
            checker.job(process)?;
        }
    }
    checker.gates()?;
    checker.whole()
}

impl Checker<'_> {
    fn that(&self, holds: bool, sentence: Sentence) -> Sound {
        if holds || self.planted == Some(Planted::SoundMisses(sentence)) {
            Ok(())
        } else {
            Err(sentence)
        }
    }

    fn all_queues(&self) -> impl Iterator<Item = &Queue> {
        let State { ready, clock, bell, gates, .. } = self.state;
        ready.iter().chain([clock, bell]).chain(gates.iter().map(|gate| &gate.queue))
    }

    /// Everybody named anywhere is a created process; the others may look them up.
    fn numbers(&self) -> Sound {
        let State { processes, gates, made, running, devices, .. } = self.state;
        self.that(!processes.is_empty() && *made <= GATES, Sentence::LowestNumbers)?;
        let created = |number: &u8| usize::from(*number) < processes.len();
        self.that(self.all_queues().flatten().all(created), Sentence::LowestNumbers)?;
        self.that(running.iter().all(created), Sentence::LowestNumbers)?;
        self.that(devices.iter().flatten().all(|busy| created(&busy.process)), Sentence::LowestNumbers)?;
        for gate in gates {
            let named = gate.holder.iter().chain(gate.cells.iter().flatten());
            self.that(named.into_iter().all(created), Sentence::LowestNumbers)?;
        }
        self.that(gates[*made..].iter().all(Gate::is_deserted), Sentence::OtherGates)
    }

    fn queues(&self) -> Sound {
        let repeats = |queue: &Queue| (1..queue.len()).any(|at| queue.range(..at).any(|&member| member == queue[at]));
        self.that(!self.all_queues().any(repeats), Sentence::QueueRepeats)
    }

    /// In exactly one place, and holding no more than the place allows.
    fn place(&self, me: u8, process: &Process) -> Sound {
        let State { ready, clock, bell, gates, running, devices, .. } = self.state;
        let times = |queue: &Queue| queue.iter().filter(|&&member| member == me).count();
        let runs = usize::from(*running == Some(me));
        let anywhere_ready: usize = ready.iter().map(times).sum();
        let in_its_class = ready.get(usize::from(process.class)).map_or(0, times);
        let delayed = |gate: &Gate| gate.cells.iter().filter(|&&cell| cell == Some(me)).count();
        let at_gates: usize = gates.iter().map(|gate| times(&gate.queue) + delayed(gate)).sum();
        let at_devices = devices.iter().flatten().filter(|busy| busy.process == me).count();
        let waits = times(clock) + times(bell) + at_devices;
        let places = runs + anywhere_ready + at_gates + waits + usize::from(process.ended);
        self.that(places == 1 && in_its_class == anywhere_ready, Sentence::OnePlace)?;

        let held = process.held.len();
        self.that(!process.ended || held == 0, Sentence::EndedHolds)?;
        self.that(!process.in_job || held == 0, Sentence::JobHolds)?;
        self.that(!process.in_job || runs + in_its_class == 1, Sentence::JobPlace)?;
        self.that(at_gates == 0 || held <= 7, Sentence::WaiterHoldsEight)
    }

    fn holdings(&self, me: u8, process: &Process) -> Sound {
        for (at, &gate) in process.held.iter().enumerate() {
            let holder = self.state.gates.get(usize::from(gate)).and_then(|gate| gate.holder);
            let once = !process.held[..at].contains(&gate);
            self.that(holder == Some(me) && once, Sentence::HeldAgrees)?;
        }
        let fits = match process.class {
            0 => !process.held.is_empty(),
            1 | 2 => process.held.is_empty(),
            _ => false,
        };
        self.that(fits, Sentence::ClassByHolding)
    }

    fn gates(&self) -> Sound {
        for (number, gate) in self.state.gates.iter().enumerate() {
            self.that(gate.holder.is_some() || gate.queue.is_empty(), Sentence::OpenWithWaiter)?;
            let Some(holder) = gate.holder else { continue };
            let listed = self.state.processes[usize::from(holder)].held.contains(&(number as u8));
            self.that(listed, Sentence::HeldAgrees)?;
            let waits = gate.queue.contains(&holder) || gate.cells.contains(&Some(holder));
            self.that(!waits, Sentence::WaitsAtOwn)?;
        }
        Ok(())
    }

    fn registers(&self, process: &Process) -> Sound {
        let Process { s, b, c, slice, reason, .. } = *process;
        self.that(process.v <= MAX_VARIABLES, Sentence::Variables)?;
        self.that(process.floor() <= u32::from(s) && s <= b && b <= c, Sentence::Registers)?;
        self.that(process.address <= self.state.length, Sentence::Address)?;
        self.that(slice <= 190 && slice.is_multiple_of(10), Sentence::Slice)?;
        self.that(process.in_job || c == TOP && reason == 0, Sentence::OutsideJob)
    }

    fn job(&self, process: &Process) -> Sound {
        let Process { c, saved, reason, .. } = *process;
        self.that(c == saved.s, Sentence::JobCeiling)?;
        self.that(saved.s <= saved.b && saved.b <= TOP, Sentence::JobSaved)?;
        self.that(u32::from(c) + u32::from(saved.p) <= u32::from(TOP), Sentence::JobWords)?;
        self.that(saved.address <= self.state.length, Sentence::JobAddress)?;
        self.that(reason == 0 || (16..=255).contains(&reason), Sentence::JobReason)
    }

    fn whole(&self) -> Sound {
        let state = self.state;
        let nobody_ready = state.ready.iter().all(Queue::is_empty);
        self.that(state.running.is_some() || nobody_ready, Sentence::ReadyWhileIdle)?;
        let header = state.edition == 1 && (1..=MAX_LENGTH).contains(&state.length) && state.present <= 31;
        self.that(header, Sentence::Header)?;
        for (device, busy) in state.devices.iter().enumerate() {
            let sound = busy
                .is_none_or(|busy| state.is_present(device) && busy.operation <= 3 && is_whole(i32::from(busy.record)));
            self.that(sound, Sentence::Device)?;
        }
        self.that(state.fraction <= 9_990 && state.fraction.is_multiple_of(10), Sentence::Fraction)?;
        self.that(state.seconds <= 32_767, Sentence::Seconds)?;
        self.that(state.stop.is_none_or(|number| number <= 9), Sentence::StopNumber)?;
        self.that(state.count <= DUE, Sentence::Count)?;
        self.that(!state.mark || state.running.is_some(), Sentence::Mark)
    }
}

/// Sentences that the paper does not have, for the planted faults.
pub fn is_strange(state: &State, planted: Option<Planted>) -> bool {
    match planted {
        Some(Planted::SoundBestRuns) => state.running.is_some_and(|running| {
            let class = usize::from(state.processes[usize::from(running)].class);
            state.ready[..class].iter().any(|queue| !queue.is_empty())
        }),
        Some(Planted::SoundTerminalControl) => state.devices[0].is_some_and(|busy| busy.operation == 3),
        Some(Planted::SoundBellTerminal) => !state.bell.is_empty() && !state.is_present(0),
        Some(Planted::SoundSavedZero) => {
            state.processes.iter().any(|process| !process.in_job && process.saved != Saved::default())
        }
        _ => false,
    }
}
