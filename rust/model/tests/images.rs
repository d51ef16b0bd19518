//! The paper's whole example image, and the order of the refusals in loading.

use model::state::{COMMON, PRIVATE};
use model::words::{decode, WORDS};
use model::Model;

const UNTOUCHED: u16 = 7;

fn bytes(blocks: &[&[u16]], checks: &[u16]) -> Vec<u8> {
    let mut image = Vec::new();
    for (content, check) in blocks.iter().zip(checks) {
        let mut words = [0; 256];
        words[..content.len()].copy_from_slice(content);
        words[255] = *check;
        image.extend(words.iter().flat_map(|word: &u16| word.to_le_bytes()));
    }
    image
}

fn example() -> Vec<u8> {
    bytes(&[&[0, 1, 2, 1, 0], &[1, 28, 4]], &[65_531, 65_502])
}

struct Loaded {
    number: u64,
    common: Vec<u16>,
    code: Vec<u16>,
    state: Vec<u16>,
}

fn load(image: &[u8], common: usize, code: usize) -> Loaded {
    load_into(image, common, code, WORDS)
}

fn load_into(image: &[u8], common: usize, code: usize, state: usize) -> Loaded {
    let mut common = vec![UNTOUCHED; common];
    let mut private = vec![UNTOUCHED; PRIVATE];
    let mut code = vec![UNTOUCHED; code];
    let mut state = vec![UNTOUCHED; state];
    let number = Model::new(None).load(image, &mut code, &mut common, &mut private, &mut state);
    Loaded { number, common, code, state }
}

#[test]
fn the_example_loads() {
    let loaded = load(&example(), COMMON, 3);
    assert_eq!(loaded.number, 2 * 256);
    assert_eq!(loaded.code, [28, 4, UNTOUCHED]);
    assert!(loaded.common.iter().all(|&word| word == 0));
    let state = decode(&loaded.state).expect("a state");
    let process = &state.processes[0];
    assert_eq!((state.running, state.length, state.present, state.edition), (Some(0), 2, 1, 1));
    assert_eq!((process.address, process.class, process.s, process.b, process.c), (0, 2, 4096, 4096, 4096));
    assert_eq!((state.count, state.mark), (0, false));
}

#[test]
fn the_state_is_822_words() {
    let short = load_into(&example(), COMMON, 2, 821);
    assert_eq!((short.number, short.state, short.code), (10, vec![UNTOUCHED; 821], vec![UNTOUCHED; 2]));
    let long = load_into(&example(), COMMON, 2, 823);
    assert_eq!((long.number, &long.state[817..]), (2 * 256, &[1, 2, 1, 0, 0, UNTOUCHED][..]));
}

#[test]
fn the_example_is_written() {
    let mut out = vec![0x55; 1025];
    let mut model = Model::new(None);
    assert_eq!(model.write(1, 2, 1, 0, &[28, 4], &mut out), 1024 * 256);
    assert_eq!(out[..1024], example());
    assert_eq!(out[1024], 0x55);
    assert_eq!(model.write(1, 2, 32, 0, &[28], &mut []), 3);
    assert_eq!(model.write(1, 2, 31, 0, &[28], &mut []), 6);
    assert_eq!(model.write(1, 2, 31, 0, &[28, 4], &mut out[..1023]), 10);
}

/// The refusal's number, and what stands above it.
fn refusal(image: &[u8]) -> (u64, u64) {
    let loaded = load(image, COMMON - 1, 0);
    assert!(loaded.code.is_empty() && loaded.state.iter().all(|&word| word == UNTOUCHED));
    (loaded.number & 0xFF, loaded.number >> 8)
}

#[test]
fn refusals_come_in_table_order() {
    assert_eq!(refusal(&[]), (1, 0));
    assert_eq!(refusal(&example()[..1023]), (1, 0));
    assert_eq!(refusal(&bytes(&[&[0, 1, 2, 1, 0], &[1, 28, 4]], &[65_531, 65_501])), (2, 1));
    assert_eq!(refusal(&bytes(&[&[0, 9, 2, 1, 0], &[2, 28, 4]], &[65_523, 65_501])), (2, 1));
    assert_eq!(refusal(&bytes(&[&[0, 1, 2, 1, 0], &[1, 28, 4], &[3]], &[65_531, 65_502, 65_532])), (2, 2));
    assert_eq!(refusal(&bytes(&[&[0, 2, 2, 1, 0]], &[65_530])), (3, 0));
    assert_eq!(refusal(&bytes(&[&[0, 1, 2, 1, 0, 1]], &[65_530])), (3, 0));
    assert_eq!(refusal(&bytes(&[&[0, 1, 2, 1, 0]], &[65_531])), (4, 0));
    assert_eq!(refusal(&bytes(&[&[0, 1, 2, 1, 0], &[1, 28, 4, 1]], &[65_531, 65_501])), (5, 0));
    assert_eq!(refusal(&example()), (6, 0));
    let short = load(&example(), COMMON, 1);
    assert_eq!((short.number, short.code), (10, vec![UNTOUCHED]));
}
