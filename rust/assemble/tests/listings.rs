//! What a listing may say, and what it may not.

use assemble::{image, program, Program};
use plumbsorrel::Header;

fn code(listing: &str) -> Vec<u16> {
    program(listing).expect("a good listing").code
}

fn complaint(listing: &str) -> String {
    program(listing).expect_err("a bad listing")
}

/// Document 01's whole example: code 28 4.
#[test]
fn the_papers_example() {
    let blocks: [(&[u16], u16); 2] = [(&[0, 1, 2, 1, 0], 65_531), (&[1, 28, 4], 65_502)];
    let mut expected = Vec::new();
    for (content, check) in blocks {
        let mut words = [0; 256];
        words[..content.len()].copy_from_slice(content);
        words[255] = check;
        expected.extend(words.iter().flat_map(|word: &u16| word.to_le_bytes()));
    }
    assert_eq!(image("devices 1\nKTRAP 4 ; the end"), Ok(expected));
}

#[test]
fn fields_names_and_labels() {
    let listing = "variables 7\n there = -1\nstart: PUSHCONST there  JUMP later\nlater: NEWLINE start POP";
    let Program { header, code } = program(listing).expect("a good listing");
    assert_eq!(header, Header { devices: 0, variables: 7 });
    assert_eq!(code, [1, 65_535, 20, 4, 0, 0, 5]);
}

/// Each mnemonic gives its place in document 01's list, and takes the arguments named there.
#[test]
fn every_mnemonic() {
    let listing = "
        NEWLINE 99  PUSHCONST 99  PUSHIND  COPYWORD  LOCALADDR 99  POP  INDEX 97 98 99  RANGE 98 99  NOT  AND  OR
        NEG  ADD  SUB  MUL  DIV  MOD  LESS  EQUAL  GREATER  JUMP 99  FALSEJUMP 99  CASEJUMP 99 2 97 98  CALL 99
        ENTER 99  EXIT 99  CALLPROG 98 99  EXITPROG  KTRAP 99";
    let mut expected = vec![0, 99, 1, 99, 2, 3, 4, 99, 5, 6, 97, 98, 99, 7, 98, 99];
    expected.extend(8..=19);
    expected.extend([20, 99, 21, 99, 22, 99, 2, 97, 98, 23, 99, 24, 99, 25, 99, 26, 98, 99, 27, 28, 99]);
    assert_eq!(code(listing), expected);
}

#[test]
fn complaints() {
    assert_eq!(complaint("POP\nPOPP"), "line 2: POPP is neither a mnemonic nor a label");
    assert_eq!(complaint("INDEX 1 2"), "line 1: INDEX has 3 arguments");
    assert_eq!(complaint("CASEJUMP 0 2 5"), "line 1: CASEJUMP has 4 arguments");
    assert_eq!(complaint("CASEJUMP 0 cases 5\ncases = 1"), "line 1: CASEJUMP's count is no number");
    assert_eq!(complaint("\nJUMP away"), "line 2: nothing is named away");
    assert_eq!(complaint("a: POP\na = 4"), "line 2: a is named twice");
    assert_eq!(complaint("PUSHCONST 65536"), "line 1: 65536 is neither a number nor a name");
    assert_eq!(complaint("devices many"), "line 1: many is no number of 16 bits");
    assert_eq!(complaint("A: POP"), "line 1: A is no name");
    assert_eq!(image("devices 32\nPOP"), Err("refused with 3: the header is out of range".into()));
    assert_eq!(image("; nothing"), Err("refused with 3: the header is out of range".into()));
}
