//! Listings: document 01's mnemonics with numbers, names and labels, and the header's fields.
//!
//! A line holds a header field (`devices 8`, `variables 4`), a name for a number (`printer = 3`), or any number of
//! labels (`round:`) and instructions. A semicolon begins a comment. A name may stand before the line that gives it.

use plumbsorrel::Header;
use std::collections::HashMap;
use std::slice::Iter;

/// The mnemonics by code word, each with the number of its arguments; CASEJUMP's targets come on top.
const CODES: [(&str, usize); 29] = [
    ("NEWLINE", 1),
    ("PUSHCONST", 1),
    ("PUSHIND", 0),
    ("COPYWORD", 0),
    ("LOCALADDR", 1),
    ("POP", 0),
    ("INDEX", 3),
    ("RANGE", 2),
    ("NOT", 0),
    ("AND", 0),
    ("OR", 0),
    ("NEG", 0),
    ("ADD", 0),
    ("SUB", 0),
    ("MUL", 0),
    ("DIV", 0),
    ("MOD", 0),
    ("LESS", 0),
    ("EQUAL", 0),
    ("GREATER", 0),
    ("JUMP", 1),
    ("FALSEJUMP", 1),
    ("CASEJUMP", 2),
    ("CALL", 1),
    ("ENTER", 1),
    ("EXIT", 1),
    ("CALLPROG", 2),
    ("EXITPROG", 0),
    ("KTRAP", 1),
];
const CASEJUMP: usize = 22;

/// A listing's header and code.
#[derive(Debug, PartialEq, Eq)]
pub struct Program {
    pub header: Header,
    pub code: Vec<u16>,
}

/// An argument: a word, or a name to look up in the end.
enum Word {
    Known(u16),
    Named { name: String, line: usize },
}

#[derive(Default)]
struct Reader {
    header: Header,
    names: HashMap<String, u16>,
    words: Vec<Word>,
}

/// A number from -32,768 to 65,535 as a word.
fn number(text: &str) -> Option<u16> {
    let value: i32 = text.parse().ok()?;
    (-32_768..=65_535).contains(&value).then_some(value as u16)
}

fn is_name(text: &str) -> bool {
    let starts_well = text.starts_with(|first: char| first.is_ascii_lowercase());
    starts_well && text.chars().all(|each| each.is_ascii_lowercase() || each.is_ascii_digit() || each == '_')
}

impl Reader {
    fn line(&mut self, at: usize, text: &str) -> Result<(), String> {
        let parts: Vec<&str> = text.split(';').next().unwrap_or("").split_whitespace().collect();
        match parts[..] {
            [] => Ok(()),
            ["devices", value] => Self::field(value).map(|word| self.header.devices = word),
            ["variables", value] => Self::field(value).map(|word| self.header.variables = word),
            [name, "=", value] => Self::field(value).and_then(|word| self.name(name, word)),
            _ => self.instructions(at, &parts),
        }
    }

    fn field(text: &str) -> Result<u16, String> {
        number(text).ok_or_else(|| format!("{text} is no number of 16 bits"))
    }

    fn name(&mut self, name: &str, word: u16) -> Result<(), String> {
        if !is_name(name) {
            return Err(format!("{name} is no name"));
        }
        match self.names.insert(name.into(), word) {
            None => Ok(()),
            Some(_) => Err(format!("{name} is named twice")),
        }
    }

    fn instructions(&mut self, at: usize, parts: &[&str]) -> Result<(), String> {
        let mut parts = parts.iter();
        while let Some(part) = parts.next() {
            match part.strip_suffix(':') {
                Some(label) => self.name(label, self.words.len() as u16)?,
                None => self.instruction(at, part, &mut parts)?,
            }
        }
        Ok(())
    }

    fn instruction(&mut self, at: usize, name: &str, parts: &mut Iter<&str>) -> Result<(), String> {
        let code = CODES.iter().position(|(mnemonic, _)| *mnemonic == name);
        let code = code.ok_or_else(|| format!("{name} is neither a mnemonic nor a label"))?;
        let mut count = CODES[code].1;
        if code == CASEJUMP {
            let cases = parts.as_slice().get(1).and_then(|text| number(text));
            count += usize::from(cases.ok_or("CASEJUMP's count is no number")?);
        }
        self.words.push(Word::Known(code as u16));
        for _ in 0..count {
            let argument = parts.next().ok_or_else(|| format!("{name} has {count} arguments"))?;
            self.words.push(self.argument(at, argument)?);
        }
        Ok(())
    }

    fn argument(&self, line: usize, text: &str) -> Result<Word, String> {
        match number(text) {
            Some(word) => Ok(Word::Known(word)),
            None if is_name(text) => Ok(Word::Named { name: text.into(), line }),
            None => Err(format!("{text} is neither a number nor a name")),
        }
    }

    fn finish(self) -> Result<Program, String> {
        let Reader { header, names, words } = self;
        let known = |word| match word {
            Word::Known(word) => Ok(word),
            Word::Named { name, line } => {
                names.get(&name).copied().ok_or_else(|| format!("line {line}: nothing is named {name}"))
            }
        };
        Ok(Program { header, code: words.into_iter().map(known).collect::<Result<_, _>>()? })
    }
}

/// The program of a listing, or the first line that says nothing, and why.
pub fn program(listing: &str) -> Result<Program, String> {
    let mut reader = Reader::default();
    for (line, text) in (1..).zip(listing.lines()) {
        reader.line(line, text).map_err(|why| format!("line {line}: {why}"))?;
    }
    reader.finish()
}

/// The image of a listing.
pub fn image(listing: &str) -> Result<Vec<u8>, String> {
    let Program { header, code } = program(listing)?;
    plumbsorrel::write(header, &code).map_err(|refusal| refusal.to_string())
}
