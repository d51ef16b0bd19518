//! Two machines side by side: each offer goes to both, and all that either
//! was lent is compared afterwards.

use super::watch::Watcher;
use crate::link::Library;
use model::image::Header;
use model::state::{COMMON, PRIVATE};
use model::words::{canonical, field, LENGTH_AT, TAIL_AT, WORDS};
use model::{Model, RECORD};

/// Words behind the end of what is lent, to see that nobody touches them and
/// to be able to lend too much.
pub const SLACK: usize = 4;
const UNTOUCHED: u16 = 0xA5C3;
const SHOWN: usize = 12;

pub enum Offer {
    Load(Vec<u8>),
    Step,
    Run(u32),
    Tick,
    Bell,
    Done(u16, u16, u16),
    Write(Header, Vec<u16>, usize),
    IsSound,
    /// A device, and the words of room for its record.
    Record(u16, usize),
}

impl Offer {
    /// Whether it changes no word of the state, taken or not.
    fn only_looks(&self) -> bool {
        matches!(self, Offer::Write(..) | Offer::IsSound | Offer::Record(..))
    }
}

impl std::fmt::Display for Offer {
    fn fmt(&self, f: &mut std::fmt::Formatter) -> std::fmt::Result {
        match self {
            Offer::Load(image) => write!(f, "load an image of {} bytes", image.len()),
            Offer::Step => write!(f, "step"),
            Offer::Run(budget) => write!(f, "run {budget}"),
            Offer::Tick => write!(f, "tick"),
            Offer::Bell => write!(f, "bell"),
            Offer::Done(device, status, arg) => write!(f, "done: device {device}, status {status}, arg {arg}"),
            Offer::Write(header, code, out) => write!(f, "write {header:?}, {} code words, {out} bytes", code.len()),
            Offer::IsSound => write!(f, "is_sound"),
            Offer::Record(device, room) => write!(f, "record: device {device}, room for {room} words"),
        }
    }
}

/// How many words of each slice are lent.
#[derive(Clone, Copy, Debug)]
pub struct Lent {
    pub common: usize,
    pub private: usize,
    pub code: usize,
    pub state: usize,
}

/// What one of the two is lent.
pub struct Side {
    pub common: Vec<u16>,
    pub private: Vec<u16>,
    pub code: Vec<u16>,
    pub state: Vec<u16>,
    pub out: Vec<u8>,
    pub record: [u16; RECORD + SLACK],
}

impl Side {
    fn new() -> Self {
        Side {
            common: vec![UNTOUCHED; COMMON + SLACK],
            private: vec![UNTOUCHED; PRIVATE + SLACK],
            code: Vec::new(),
            state: vec![0; WORDS + SLACK],
            out: Vec::new(),
            record: [UNTOUCHED; RECORD + SLACK],
        }
    }

    fn words(&self) -> &[u16; WORDS] {
        self.state.first_chunk().expect("a side has all its words")
    }

    fn take(&mut self, library: &mut dyn Library, offer: &Offer, lent: &Lent) -> u64 {
        let common = &mut self.common[..lent.common];
        let private = &mut self.private[..lent.private];
        let code = &mut self.code[..lent.code];
        let state = &mut self.state[..lent.state];
        match offer {
            Offer::Load(image) => library.load(image, code, common, private, state),
            Offer::Step => library.step(code, common, private, state),
            Offer::Run(budget) => library.run(code, *budget, common, private, state),
            Offer::Tick => library.tick(state),
            Offer::Bell => library.bell(state),
            Offer::Done(device, status, arg) => library.done(*device, *status, *arg, common, private, state),
            Offer::Write(header, text, length) => {
                self.out.clear();
                self.out.resize(length + SLACK, 0x5A);
                let out = &mut self.out[..*length];
                let Header { edition, length, devices, variables } = *header;
                library.write(edition, length, devices, variables, text, out)
            }
            Offer::IsSound => library.is_sound(state),
            Offer::Record(device, room) => {
                self.record = [UNTOUCHED; RECORD + SLACK];
                library.record(*device, common, private, state, &mut self.record[..*room])
            }
        }
    }
}

/// What differs after an offer.
#[derive(Debug)]
pub struct Difference(pub Vec<String>);

pub struct World {
    pub model: Model,
    library: Box<dyn Library>,
    ours: Side,
    theirs: Side,
    watcher: Watcher,
    /// Instructions that the model counted.
    pub steps: u64,
    pub offers: u64,
    /// What happened to the state between offers, for a reader of a difference.
    pub story: String,
}

impl World {
    pub fn new(model: Model, library: Box<dyn Library>) -> Self {
        let (ours, theirs, watcher) = (Side::new(), Side::new(), Watcher::default());
        World { model, library, ours, theirs, watcher, steps: 0, offers: 0, story: String::new() }
    }

    /// The library's 822 words.
    pub fn state(&self) -> &[u16] {
        self.theirs.words()
    }

    pub fn is_stopped(&self) -> bool {
        self.state()[TAIL_AT + 3] != 10
    }

    pub fn is_idle(&self) -> bool {
        self.state()[TAIL_AT] == 10
    }

    /// The right lengths for the machine as it stands.
    pub fn lent(&self) -> Lent {
        let code = usize::from(self.state()[LENGTH_AT]).min(self.theirs.code.len());
        Lent { common: COMMON, private: PRIVATE, code, state: WORDS }
    }

    /// No more than there is to lend.
    fn available(&self, lent: &Lent) -> Lent {
        Lent {
            common: lent.common.min(COMMON + SLACK),
            private: lent.private.min(PRIVATE + SLACK),
            code: lent.code.min(self.theirs.code.len()),
            state: lent.state.min(WORDS + SLACK),
        }
    }

    fn sides(&mut self) -> [&mut Side; 2] {
        [&mut self.ours, &mut self.theirs]
    }

    pub fn set_code(&mut self, code: &[u16]) {
        for side in self.sides() {
            side.code.clear();
            side.code.extend_from_slice(code);
            side.code.extend([UNTOUCHED; SLACK]);
        }
    }

    /// A code buffer of `length` words in which nothing stands yet.
    pub fn clear_code(&mut self, length: usize) {
        self.set_code(&vec![UNTOUCHED; length]);
    }

    pub fn set_state(&mut self, words: &[u16]) {
        for side in self.sides() {
            side.state[..WORDS].copy_from_slice(words);
        }
    }

    /// Changes words in both; both start from the library's, so that words
    /// behind the end of a list are alike should they come to count.
    pub fn change_state(&mut self, changes: &[(usize, u16)]) {
        self.ours.state.copy_from_slice(&self.theirs.state);
        for side in self.sides() {
            for &(at, value) in changes {
                side.state[at] = value;
            }
        }
    }

    pub fn set_stores(&mut self, common: &[u16], private: &[u16]) {
        for side in self.sides() {
            side.common[..COMMON].copy_from_slice(common);
            side.private[..PRIVATE].copy_from_slice(private);
        }
    }

    /// A word at an address as `process` sees it.
    pub fn poke(&mut self, process: usize, address: u16, word: u16) {
        let address = usize::from(address);
        for side in self.sides() {
            match address.checked_sub(COMMON) {
                None => side.common[address] = word,
                Some(place) => side.private[process * 2048 + place] = word,
            }
        }
    }

    pub fn offer(&mut self, offer: &Offer) -> Result<u64, Difference> {
        let lent = self.lent();
        self.offer_lending(offer, &lent)
    }

    pub fn offer_lending(&mut self, offer: &Offer, lent: &Lent) -> Result<u64, Difference> {
        let lent = &self.available(lent);
        let before = *self.theirs.words();
        let expected = self.ours.take(&mut self.model, offer, lent);
        let number = self.theirs.take(&mut *self.library, offer, lent);
        self.offers += 1;
        if matches!(offer, Offer::Step | Offer::Run(_)) {
            self.steps += expected >> 32;
        }
        let keeps_words = number & 0xFF != 0 || offer.only_looks();
        let kept = !keeps_words || before == *self.theirs.words();
        let alike = expected == number && kept && self.is_alike();
        let watched = if alike { self.watch(offer, &before, number) } else { Ok(()) };
        if alike && watched.is_ok() {
            return Ok(number);
        }
        let mut differences = vec![
            format!("offer: {offer}, lending {lent:?}"),
            format!("before it: {}", self.story),
            format!("number: model {expected:#x}, library {number:#x}"),
        ];
        match watched {
            Err(broken) => differences.push(format!("the library's selections: {broken}")),
            Ok(()) => self.name_differences(&mut differences, &before, keeps_words),
        }
        Err(Difference(differences))
    }

    /// The library's own words, where the offer was taken: of several instructions at once no selection can be told.
    fn watch(&mut self, offer: &Offer, before: &[u16; WORDS], number: u64) -> Result<(), String> {
        let single = match offer {
            _ if number & 0xFF != 0 || offer.only_looks() => return Ok(()),
            Offer::Load(_) => false,
            Offer::Run(_) => number >> 32 <= 1,
            _ => true,
        };
        if single {
            return self.watcher.watch(before, self.theirs.words(), &mut self.model.tally);
        }
        self.watcher.start_anew();
        Ok(())
    }

    fn is_alike(&self) -> bool {
        let (ours, theirs) = (&self.ours, &self.theirs);
        ours.record == theirs.record
            && ours.common == theirs.common
            && ours.private == theirs.private
            && ours.code == theirs.code
            && ours.out == theirs.out
            && ours.state[WORDS..] == theirs.state[WORDS..]
            && canonical(ours.words()) == canonical(theirs.words())
    }

    fn name_differences(&self, into: &mut Vec<String>, before: &[u16; WORDS], keeps_words: bool) {
        fn list<T: PartialEq + Copy + std::fmt::Display>(
            into: &mut Vec<String>,
            what: impl Fn(usize) -> String,
            ours: &[T],
            theirs: &[T],
        ) {
            let differing = ours.iter().zip(theirs).enumerate().filter(|(_, (one, other))| one != other);
            for (at, (one, other)) in differing.take(SHOWN) {
                into.push(format!("{}: model {one}, library {other}", what(at)));
            }
        }
        let (ours, theirs) = (&self.ours, &self.theirs);
        list(into, |at| format!("record {at}"), &ours.record, &theirs.record);
        list(into, field, &canonical(ours.words()), &canonical(theirs.words()));
        list(into, |at| format!("behind the state {at}"), &ours.state[WORDS..], &theirs.state[WORDS..]);
        list(into, |at| format!("common {at}"), &ours.common, &theirs.common);
        list(into, |at| format!("private {}/{}", at / 2048, 2048 + at % 2048), &ours.private, &theirs.private);
        list(into, |at| format!("code {at}"), &ours.code, &theirs.code);
        list(into, |at| format!("out {at}"), &ours.out, &theirs.out);
        if keeps_words {
            list(
                into,
                |at| format!("{} before (model) and after (library), where none may change", field(at)),
                before,
                theirs.words(),
            );
        }
    }
}
