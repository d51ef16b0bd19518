//! An independent interpreter of the machine, written from the paper alone:
//! what the operations take and refuse, and the number that each answers.

mod answer;
pub mod exec;
pub mod image;
mod jobs;
mod kernel;
pub mod machine;
pub mod planted;
mod selection;
pub mod sound;
pub mod state;
pub mod tally;
pub mod words;

use answer::{Answer, Refusal};
use image::Header;
use machine::{Ending, Machine};
use planted::Planted;
use sound::Sentence;
use state::{State, COMMON, DEVICES, PRIVATE};
use tally::{Group, Tally};
use words::{FRACTION_AT, LENGTH_AT, WORDS};

/// Words of a device's record.
pub const RECORD: usize = 4;

/// Its operations take slices of any length and answer the number of the C interface.
pub struct Model {
    pub planted: Option<Planted>,
    pub tally: Tally,
}

impl Model {
    pub fn new(planted: Option<Planted>) -> Self {
        Model { planted, tally: Tally::default() }
    }

    fn is(&self, planted: Planted) -> bool {
        cfg!(feature = "faults") && self.planted == Some(planted)
    }

    fn offered(&mut self, offer: Group, answer: Answer) -> u64 {
        let number = answer.map_or_else(Refusal::number, |_| 0);
        self.tally.add(offer, number as usize);
        match answer {
            Ok(rest) => rest << 8,
            Err(Refusal::Damage(image::Damage::Block(block))) if self.is(Planted::BlockCut) => {
                number | u64::from(block as u16) << 8
            }
            Err(refusal) => number | refusal.block() << 8,
        }
    }

    /// The state in the words, if it is one and sound.
    fn sound(&mut self, words: &[u16]) -> Result<State, Sentence> {
        let state = words::decode(words).ok_or(Sentence::Packed)?;
        sound::check(&state, self.planted)?;
        let others = &words[state.processes.len() * words::PROCESS_WORDS..words::GATES_AT];
        let reads_others = self.is(Planted::SoundUncreated) && others.iter().any(|&word| word != 0);
        if reads_others || sound::is_strange(&state, self.planted) {
            return Err(Sentence::Packed);
        }
        Ok(state)
    }

    /// The new state goes back as words.
    fn hand_back(&mut self, state: &State, words: &mut [u16]) {
        if cfg!(feature = "faults") {
            if let Err(sentence) = sound::check(state, None) {
                self.tally.add(Group::LeftUnsound, sentence as usize);
            }
        }
        words.copy_from_slice(&words::encode(state));
    }

    /// Refusal 7.
    fn held(&mut self, words: &[u16]) -> Result<State, Refusal> {
        self.sound(words).map_err(|sentence| {
            self.tally.add(Group::Unsound, sentence as usize);
            Refusal::Unsound
        })
    }

    /// Refusals 7 and 8.
    fn going_on(&mut self, words: &[u16]) -> Result<State, Refusal> {
        if self.is(Planted::StoppedBeforeSound) && words::decode(words).is_some_and(|state| state.stop.is_some()) {
            return Err(Refusal::Stopped);
        }
        let state = self.held(words)?;
        if state.stop.is_some() {
            Err(Refusal::Stopped)
        } else {
            Ok(state)
        }
    }

    /// Refusal 6 where stores, and perhaps code, are lent.
    fn lent(&mut self, code: Option<&[u16]>, common: &[u16], private: &[u16], words: &[u16]) -> Result<(), Refusal> {
        if self.is(Planted::SoundBeforeLengths) {
            self.sound(words).map_err(|_| Refusal::Unsound)?;
        }
        if common.len() != COMMON || private.len() != PRIVATE {
            return Err(Refusal::Lent);
        }
        // Words of another count name no code length; they are refused by 7.
        if let (Some(code), WORDS) = (code, words.len()) {
            if code.len() != usize::from(words[LENGTH_AT]) {
                return Err(Refusal::Lent);
            }
        }
        Ok(())
    }

    fn machine<'a>(
        &'a mut self,
        state: State,
        code: &'a [u16],
        common: &'a mut [u16],
        private: &'a mut [u16],
    ) -> Machine<'a> {
        Machine { state, code, common, private, planted: self.planted, tally: &mut self.tally }
    }

    fn try_load(
        &mut self,
        image: &[u8],
        code: &mut [u16],
        common: &mut [u16],
        private: &mut [u16],
        words: &mut [u16],
    ) -> Answer {
        let (header, text) = image::read(image, self.planted).map_err(Refusal::Damage)?;
        if self.is(Planted::LoadShortFirst) && code.len() < text.len() {
            return Err(Refusal::Short);
        }
        if common.len() != COMMON || private.len() != PRIVATE {
            return Err(Refusal::Lent);
        }
        let Some(place) = code.get_mut(..text.len()) else { return Err(Refusal::Short) };
        let Some(words) = words.get_mut(..WORDS) else { return Err(Refusal::Short) };
        place.copy_from_slice(&text);
        if self.is(Planted::LoadTouchesMore) {
            code[text.len()..].fill(0);
        }
        if !self.is(Planted::LoadKeepsStores) {
            common.fill(0);
            private.fill(0);
        }
        let state = State::fresh(header.length, header.devices, header.variables);
        self.hand_back(&state, words);
        Ok(u64::from(header.length))
    }

    fn try_run(
        &mut self,
        code: &[u16],
        budget: Option<u32>,
        common: &mut [u16],
        private: &mut [u16],
        words: &mut [u16],
    ) -> Answer {
        self.lent(Some(code), common, private, words)?;
        let state = self.going_on(words)?;
        let mut machine = self.machine(state, code, common, private);
        let (ending, count) = match budget {
            Some(budget) => machine.run(budget),
            None => {
                let ending = machine.step();
                let counts = ending != Ending::Idle || machine.is(Planted::IdleCounts);
                (ending, u32::from(counts))
            }
        };
        let state = machine.state;
        self.hand_back(&state, words);
        let group = if budget.is_some() { Group::RunEnd } else { Group::StepEnd };
        self.tally.add(group, ending.number() as usize);
        let device = if self.is(Planted::DeviceUnnamed) { 0 } else { ending.device() };
        let count = if self.is(Planted::CountCut) { count & 0xFF } else { count };
        Ok(ending.number() | device << 8 | u64::from(count) << 24)
    }

    /// A tick or a bell.
    fn try_event(&mut self, words: &mut [u16], event: fn(&mut Machine)) -> Answer {
        let state = self.going_on(words)?;
        let mut machine = self.machine(state, &[], &mut [], &mut []);
        event(&mut machine);
        let state = machine.state;
        self.hand_back(&state, words);
        Ok(0)
    }

    fn try_done(
        &mut self,
        event: (u16, u16, u16),
        common: &mut [u16],
        private: &mut [u16],
        words: &mut [u16],
    ) -> Answer {
        let (device, status, arg) = event;
        self.lent(None, common, private, words)?;
        let state = self.going_on(words)?;
        let device = usize::from(device);
        if status > 6 || device >= DEVICES || state.devices[device].is_none() {
            if self.is(Planted::RefusedTicks) {
                words[FRACTION_AT] = (state.fraction + 10) % 10_000;
            }
            return Err(Refusal::BadDone);
        }
        let mut machine = self.machine(state, &[], common, private);
        machine.finish(device, status, arg);
        let state = machine.state;
        self.hand_back(&state, words);
        Ok(0)
    }

    fn try_record(
        &mut self,
        device: u16,
        common: &[u16],
        private: &[u16],
        words: &[u16],
        record: &mut [u16],
    ) -> Answer {
        self.lent(None, common, private, words)?;
        let state = if self.is(Planted::RecordStops) { self.going_on(words)? } else { self.held(words)? };
        if self.is(Planted::RecordShortFirst) && record.len() < RECORD {
            return Err(Refusal::Short);
        }
        let Some(busy) = state.devices.get(usize::from(device)).copied().flatten() else {
            return Err(Refusal::BadDone);
        };
        let Some(place) = record.get_mut(..RECORD) else { return Err(Refusal::Short) };
        let part = match state.running {
            Some(running) if self.is(Planted::RecordOfRunning) => running,
            _ => busy.process,
        };
        place.copy_from_slice(state::part(common, private, part, busy.record, RECORD));
        if self.is(Planted::RecordKeptOperation) {
            place[0] = u16::from(busy.operation);
        }
        if self.is(Planted::RecordTouchesMore) {
            record[RECORD..].fill(0);
        }
        Ok(0)
    }

    pub fn load(
        &mut self,
        image: &[u8],
        code: &mut [u16],
        common: &mut [u16],
        private: &mut [u16],
        state: &mut [u16],
    ) -> u64 {
        let taken = self.try_load(image, code, common, private, state);
        self.offered(Group::Load, taken)
    }

    pub fn step(&mut self, code: &[u16], common: &mut [u16], private: &mut [u16], state: &mut [u16]) -> u64 {
        let taken = self.try_run(code, None, common, private, state);
        self.offered(Group::Step, taken)
    }

    pub fn run(
        &mut self,
        code: &[u16],
        budget: u32,
        common: &mut [u16],
        private: &mut [u16],
        state: &mut [u16],
    ) -> u64 {
        let taken = self.try_run(code, Some(budget), common, private, state);
        self.offered(Group::Run, taken)
    }

    pub fn tick(&mut self, state: &mut [u16]) -> u64 {
        let taken = self.try_event(state, |machine| machine.tick());
        self.offered(Group::Tick, taken)
    }

    pub fn bell(&mut self, state: &mut [u16]) -> u64 {
        let taken = self.try_event(state, |machine| machine.ring());
        self.offered(Group::Bell, taken)
    }

    pub fn done(
        &mut self,
        device: u16,
        status: u16,
        arg: u16,
        common: &mut [u16],
        private: &mut [u16],
        state: &mut [u16],
    ) -> u64 {
        let taken = self.try_done((device, status, arg), common, private, state);
        self.offered(Group::Done, taken)
    }

    pub fn write(
        &mut self,
        edition: u16,
        length: u16,
        devices: u16,
        variables: u16,
        code: &[u16],
        out: &mut [u8],
    ) -> u64 {
        let taken = image::offer(&Header { edition, length, devices, variables }, code, out, self.planted);
        self.offered(Group::Write, taken)
    }

    pub fn is_sound(&mut self, state: &[u16]) -> u64 {
        let sound = self.sound(state).is_ok();
        self.tally.add(Group::IsSound, usize::from(sound));
        u64::from(sound)
    }

    pub fn record(&mut self, device: u16, common: &[u16], private: &[u16], state: &[u16], record: &mut [u16]) -> u64 {
        let taken = self.try_record(device, common, private, state, record);
        self.offered(Group::Record, taken)
    }
}
