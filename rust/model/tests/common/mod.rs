//! A machine on the bench: a state made by hand, stepped through the model.

use model::state::{Process, State, COMMON, PRIVATE};
use model::{words, Model};

pub struct Bench {
    pub code: Vec<u16>,
    pub common: Vec<u16>,
    pub private: Vec<u16>,
    pub state: State,
    /// End, count and device of the last step or run.
    pub answer: [u64; 3],
    model: Model,
}

impl Bench {
    pub fn new(code: &[u16]) -> Self {
        Bench {
            code: code.to_vec(),
            common: vec![0; COMMON],
            private: vec![0; PRIVATE],
            state: State::fresh(code.len() as u16, 31, 0),
            answer: [0; 3],
            model: Model::new(None),
        }
    }

    /// Processes up to `count`, the further ones not yet in any place.
    pub fn with_processes(code: &[u16], count: usize) -> Self {
        let mut bench = Bench::new(code);
        bench.state.processes.resize(count, Process::new(0, 0));
        bench
    }

    fn offer(&mut self, offer: impl FnOnce(&mut Self, &mut [u16]) -> u64) -> u64 {
        let mut state = words::encode(&self.state);
        let number = offer(self, &mut state);
        self.state = words::decode(&state).expect("the words are a state's");
        number
    }

    /// Keeps the answer, and returns the refusal's number.
    fn answered(&mut self, number: u64) -> u64 {
        self.answer = [number >> 8 & 0xFF, number >> 32, number >> 16 & 0xFF];
        assert_eq!(number >> 24 & 0xFF, 0, "no answer has these bits");
        number & 0xFF
    }

    pub fn run(&mut self, budget: u32) -> u64 {
        let number = self.offer(|bench, state| {
            let Bench { code, common, private, model, .. } = bench;
            model.run(code, budget, common, private, state)
        });
        self.answered(number)
    }

    pub fn step(&mut self) {
        let number = self.offer(|bench, state| {
            let Bench { code, common, private, model, .. } = bench;
            model.step(code, common, private, state)
        });
        assert_eq!(self.answered(number), 0, "the step is taken");
    }

    pub fn steps(&mut self, count: usize) {
        (0..count).for_each(|_| self.step());
    }

    pub fn tick(&mut self) -> u64 {
        self.offer(|bench, state| bench.model.tick(state))
    }

    pub fn bell(&mut self) -> u64 {
        self.offer(|bench, state| bench.model.bell(state))
    }

    pub fn done(&mut self, device: u16, status: u16, arg: u16) -> u64 {
        self.offer(|bench, state| {
            let Bench { common, private, model, .. } = bench;
            model.done(device, status, arg, common, private, state)
        })
    }

    /// The refusal's number, and the record where there is room for `room` words.
    pub fn record(&mut self, device: u16, room: usize) -> (u64, Vec<u16>) {
        let mut record = vec![99; room];
        let number = self.offer(|bench, state| {
            let Bench { common, private, model, .. } = bench;
            model.record(device, common, private, state, &mut record)
        });
        (number, record)
    }

    pub fn is_sound(&mut self) -> bool {
        self.offer(|bench, state| bench.model.is_sound(state)) == 1
    }

    /// The word on top of a process's stack.
    pub fn top(&self, process: usize) -> u16 {
        self.private[process * 2048 + usize::from(self.state.processes[process].s) - 2048]
    }
}
