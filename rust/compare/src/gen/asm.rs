//! A tiny assembler with labels.

#[derive(Clone, Copy)]
pub struct Label(usize);

#[derive(Default)]
pub struct Asm {
    code: Vec<u16>,
    labels: Vec<u16>,
    uses: Vec<(usize, Label)>,
}

pub const NEWLINE: u16 = 0;
pub const PUSHCONST: u16 = 1;
pub const PUSHIND: u16 = 2;
pub const COPYWORD: u16 = 3;
pub const LOCALADDR: u16 = 4;
pub const POP: u16 = 5;
pub const INDEX: u16 = 6;
pub const RANGE: u16 = 7;
pub const NOT: u16 = 8;
pub const ADD: u16 = 12;
pub const SUB: u16 = 13;
pub const MUL: u16 = 14;
pub const MOD: u16 = 16;
pub const JUMP: u16 = 20;
pub const FALSEJUMP: u16 = 21;
pub const CASEJUMP: u16 = 22;
pub const CALL: u16 = 23;
pub const ENTER: u16 = 24;
pub const EXIT: u16 = 25;
pub const CALLPROG: u16 = 26;
pub const EXITPROG: u16 = 27;
pub const KTRAP: u16 = 28;

impl Asm {
    pub fn label(&mut self) -> Label {
        self.labels.push(u16::MAX);
        Label(self.labels.len() - 1)
    }

    pub fn place(&mut self, label: Label) {
        self.labels[label.0] = self.code.len() as u16;
    }

    pub fn here(&mut self) -> Label {
        let label = self.label();
        self.place(label);
        label
    }

    pub fn length(&self) -> u16 {
        self.code.len() as u16
    }

    pub fn op(&mut self, code: u16, args: &[u16]) {
        self.code.push(code);
        self.code.extend_from_slice(args);
    }

    pub fn target(&mut self, label: Label) {
        self.uses.push((self.code.len(), label));
        self.code.push(0);
    }

    /// An instruction whose first argument is a label.
    pub fn to(&mut self, code: u16, label: Label) {
        self.code.push(code);
        self.target(label);
    }

    pub fn push(&mut self, word: u16) {
        self.op(PUSHCONST, &[word]);
    }

    pub fn call(&mut self, number: u16) {
        self.op(KTRAP, &[number]);
    }

    /// `address := word`.
    pub fn set(&mut self, address: u16, word: u16) {
        self.push(address);
        self.push(word);
        self.op(COPYWORD, &[]);
    }

    pub fn finish(mut self) -> Vec<u16> {
        for (at, label) in self.uses {
            self.code[at] = self.labels[label.0];
        }
        self.code
    }
}
