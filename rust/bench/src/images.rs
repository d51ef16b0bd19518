//! A full image, 65 blocks: checked, loaded and written, beside the same in plain Rust.

use crate::best;
use crate::side::Side;
use crate::world::refusal;
use plumbsorrel::slices;
use std::hint::black_box;

const BLOCK: usize = 512;
const CONTENT: usize = 254;
const CODE: usize = 16_256;
const BLOCKS: usize = 1 + CODE / CONTENT;

/// An image whose last block is bad is refused when all have been checked, and nothing else is done.
const CHECKED: &str = "65 blocks checked";
const LOADED: &str = "65 blocks loaded";
const WRITTEN: &str = "65 blocks written";
const NAMES: [&str; 3] = [CHECKED, LOADED, WRITTEN];

#[derive(Clone)]
struct Lent {
    image: Vec<u8>,
    code: Vec<u16>,
    common: Vec<u16>,
    private: Vec<u16>,
    state: Vec<u16>,
    /// The words of the machine as it is loaded, which plain Rust copies.
    fresh: Vec<u16>,
}

fn word(bytes: &[u8], k: usize) -> u16 {
    u16::from_le_bytes([bytes[2 * k], bytes[2 * k + 1]])
}

fn is_good(block: &[u8], number: usize) -> bool {
    (0..256).fold(0, |sum: u16, k| sum.wrapping_add(word(block, k))) == u16::MAX
        && usize::from(word(block, 0)) == number
}

/// The refusals in the table's order, then the code, the stores and the state.
fn load(lent: &mut Lent) -> u64 {
    let Lent { image, code, common, private, state, fresh } = lent;
    if image.is_empty() || !image.len().is_multiple_of(BLOCK) {
        return 1;
    }
    if let Some(bad) = image.chunks_exact(BLOCK).enumerate().position(|(number, block)| !is_good(block, number)) {
        return 2 | (bad as u64) << 8;
    }
    let [edition, n, devices, variables] = [1, 2, 3, 4].map(|k| word(image, k));
    let n = usize::from(n);
    let fields = edition == 1 && (1..=CODE).contains(&n) && devices <= 31 && variables <= 1024;
    if !fields || (5..255).any(|k| word(image, k) != 0) {
        return 3;
    }
    if image.len() / BLOCK != 1 + n.div_ceil(CONTENT) {
        return 4;
    }
    let last = &image[image.len() - BLOCK..];
    if ((n - 1) % CONTENT + 2..255).any(|k| word(last, k) != 0) {
        return 5;
    }
    if common.len() != 2048 || private.len() != 20_480 {
        return 6;
    }
    if code.len() < n || state.len() < fresh.len() {
        return 10;
    }
    for (part, block) in code[..n].chunks_mut(CONTENT).zip(image[BLOCK..].chunks_exact(BLOCK)) {
        let pairs = block[2..].as_chunks().0;
        part.iter_mut().zip(pairs).for_each(|(to, &pair)| *to = u16::from_le_bytes(pair));
    }
    common.fill(0);
    private.fill(0);
    state[..fresh.len()].copy_from_slice(fresh);
    (n as u64) << 8
}

fn put_block(block: &mut [u8], number: u16, content: &[u16]) {
    let check = content.iter().fold(number, |sum, &word| sum.wrapping_add(word));
    block.fill(0);
    block[..2].copy_from_slice(&number.to_le_bytes());
    block[2..].chunks_exact_mut(2).zip(content).for_each(|(to, from)| to.copy_from_slice(&from.to_le_bytes()));
    block[BLOCK - 2..].copy_from_slice(&(u16::MAX - check).to_le_bytes());
}

/// A header and its code as an image.
fn write(fields: [u16; 4], code: &[u16], out: &mut [u8]) -> u64 {
    let [edition, n, devices, variables] = fields;
    let n = usize::from(n);
    if edition != 1 || !(1..=CODE).contains(&n) || devices > 31 || variables > 1024 {
        return 3;
    }
    if code.len() != n {
        return 6;
    }
    let size = BLOCK * (1 + n.div_ceil(CONTENT));
    if out.len() < size {
        return 10;
    }
    put_block(&mut out[..BLOCK], 0, &fields);
    for ((block, content), number) in out[BLOCK..size].chunks_exact_mut(BLOCK).zip(code.chunks(CONTENT)).zip(1..) {
        put_block(block, number, content);
    }
    (size as u64) << 8
}

fn offer(side: &Side, name: &str, lent: &mut Lent) -> u64 {
    if name == WRITTEN {
        let fields = [1, CODE as u16, 31, 1024];
        let Lent { image, code, .. } = lent;
        return match side {
            Side::Proved => slices::write(fields[0], fields[1], fields[2], fields[3], code, image),
            Side::Plain(_) => write(fields, code, image),
        };
    }
    match side {
        Side::Proved => {
            let Lent { image, code, common, private, state, .. } = lent;
            slices::load(image, code, common, private, state)
        }
        Side::Plain(_) => load(lent),
    }
}

/// What a row offers: a full image, for the first row with its last block bad.
fn prepared(name: &str) -> Lent {
    let code: Vec<u16> = (0..CODE as u32).map(|k| (k * 40_503 >> 4) as u16).collect();
    let state = vec![0; plumbsorrel::STATE];
    let mut lent = Lent {
        image: vec![0; BLOCK * BLOCKS],
        code,
        common: vec![7; 2048],
        private: vec![7; 20_480],
        state: state.clone(),
        fresh: state,
    };
    assert_eq!(refusal(offer(&Side::Proved, WRITTEN, &mut lent)), 0, "the image is written");
    assert_eq!(refusal(offer(&Side::Proved, LOADED, &mut lent)), 0, "the image is loaded");
    lent.fresh.clone_from(&lent.state);
    if name == CHECKED {
        *lent.image.last_mut().expect("a byte") ^= 1;
    }
    lent
}

fn rounds(side: &Side, name: &str, lent: &mut Lent, n: u32) {
    for _ in 0..n {
        black_box(offer(side, name, black_box(lent)));
    }
}

fn agree(name: &str, lent: &Lent) {
    let (mut a, mut b) = (lent.clone(), lent.clone());
    let answers = (offer(&Side::Proved, name, &mut a), offer(&Side::plain(), name, &mut b));
    assert_eq!(answers.0, answers.1, "{name}");
    assert_eq!(
        (a.image, a.code, a.common, a.private, a.state),
        (b.image, b.code, b.common, b.private, b.state),
        "{name}"
    );
}

pub fn names() -> impl Iterator<Item = &'static str> {
    NAMES.into_iter()
}

/// One row on one side; false where no row has the name.
pub fn count(side: &Side, name: &str, n: u32) -> bool {
    let known = NAMES.contains(&name);
    if known {
        rounds(side, name, &mut prepared(name), n);
    }
    known
}

pub fn table() {
    const ROUNDS: u32 = 2_000;
    println!("{:<34} {:>12} {:>12} {:>7}", "a full image, ns", "proved", "plain Rust", "ratio");
    for name in NAMES {
        let lent = prepared(name);
        agree(name, &lent);
        let cost = |side: Side| best(ROUNDS, |n| rounds(&side, name, &mut lent.clone(), n));
        let (x, y) = (cost(Side::Proved), cost(Side::plain()));
        println!("{name:<34} {x:>12.0} {y:>12.0} {:>7.2}", y / x);
    }
}
