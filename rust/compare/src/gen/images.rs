//! Whole and damaged images.

use super::edgy;
use crate::rng::Rng;
use model::image::{self, Header, BLOCK_BYTES, CONTENT_WORDS};

pub fn header(rng: &mut Rng) -> Header {
    let length = match rng.below(12) {
        0 => 16_256,
        1 => 16_256 - rng.below(300) as u16,
        2..=5 => rng.range(252, 257) as u16,
        6 => 254 * rng.range(1, 6) as u16,
        _ => rng.range(1, 600) as u16,
    };
    let variables = rng.pick(&[0, 1, 5, 1023, 1024]);
    Header { edition: 1, length, devices: rng.below(32) as u16, variables }
}

pub fn code(rng: &mut Rng, length: usize) -> Vec<u16> {
    (0..length).map(|_| edgy(rng)).collect()
}

/// A header with one field at a value near its range's ends.
pub fn bad_header(rng: &mut Rng, mut header: Header) -> Header {
    let far = rng.word();
    match rng.below(4) {
        0 => header.edition = rng.pick(&[0, 2, 0x8001, far]),
        1 => header.length = rng.pick(&[0, 16_257, 16_510, 65_535, far]),
        2 => header.devices = rng.pick(&[32, 33, 0x8000, far]),
        _ => header.variables = rng.pick(&[1025, 2048, 65_535, far]),
    }
    header
}

/// The block's check made right again after its content was changed.
fn reseal(block: &mut [u8]) {
    let sum = block[..BLOCK_BYTES - 2]
        .chunks_exact(2)
        .fold(0u16, |sum, pair| sum.wrapping_add(u16::from_le_bytes([pair[0], pair[1]])));
    block[BLOCK_BYTES - 2..].copy_from_slice(&(u16::MAX - sum).to_le_bytes());
}

fn put(image: &mut [u8], block: usize, word: usize, value: u16) {
    let at = block * BLOCK_BYTES + 2 * word;
    image[at..at + 2].copy_from_slice(&value.to_le_bytes());
}

fn some_block(rng: &mut Rng, image: &[u8]) -> usize {
    rng.index(image.len() / BLOCK_BYTES)
}

/// A surplus block, good or bad.
fn add_block(rng: &mut Rng, image: &mut Vec<u8>) {
    let blocks = image.len() / BLOCK_BYTES;
    let number = if rng.percent(70) { blocks as u16 } else { edgy(rng) };
    let content = [edgy(rng)];
    image.extend(image::block(number, &content[..rng.index(2)]));
    if rng.percent(30) {
        let last = image.len() - 1;
        image[last] ^= 1;
    }
}

/// A wrong number under a right check.
fn renumber(rng: &mut Rng, image: &mut [u8]) {
    let block = some_block(rng, image);
    let odd = edgy(rng);
    let number = rng.pick(&[block as u16 + 1, block as u16 ^ 0x8000, 0, odd]);
    put(image, block, 0, number);
    reseal(&mut image[block * BLOCK_BYTES..][..BLOCK_BYTES]);
}

fn damage(rng: &mut Rng, image: &mut Vec<u8>) {
    let blocks = image.len() / BLOCK_BYTES;
    if blocks == 0 || !image.len().is_multiple_of(BLOCK_BYTES) {
        return;
    }
    match rng.below(9) {
        0 => {
            let bit = rng.index(image.len() * 8);
            image[bit / 8] ^= 1 << (bit % 8);
        }
        1 => {
            let cut = rng.pick(&[1, 2, 511, 512, 513, image.len() as u32]) as usize;
            image.truncate(image.len().saturating_sub(cut));
        }
        2 => image.extend(std::iter::repeat_n(0, rng.pick(&[1, 2, 256, 511]))),
        3 => add_block(rng, image),
        4 => {
            image.truncate((blocks - 1) * BLOCK_BYTES);
        }
        5 => renumber(rng, image),
        6 => {
            let block = some_block(rng, image);
            put(image, block, 255, edgy(rng));
        }
        // Two words changed so that the sum stays: only the number may catch it.
        7 => {
            let block = some_block(rng, image);
            let at = block * BLOCK_BYTES + 2 * rng.index(255);
            image[at] = image[at].wrapping_add(1);
            reseal(&mut image[block * BLOCK_BYTES..][..BLOCK_BYTES]);
        }
        _ => {
            let (block, other) = (some_block(rng, image), some_block(rng, image));
            let moved = image[other * BLOCK_BYTES..][..BLOCK_BYTES].to_vec();
            image[block * BLOCK_BYTES..][..BLOCK_BYTES].copy_from_slice(&moved);
        }
    }
}

/// A nonzero word after the header or after the code, under a right check.
fn soil(rng: &mut Rng, image: &mut [u8], header: &Header) {
    let filled = usize::from(header.length) % CONTENT_WORDS;
    let last = image.len() / BLOCK_BYTES - 1;
    let (block, word) = match rng.below(3) {
        0 => (0, rng.range(5, 254) as usize),
        1 => (last, rng.range(filled as i32 + 1, 254) as usize),
        _ => (last, 254),
    };
    put(image, block, word, edgy(rng) | 1);
    reseal(&mut image[block * BLOCK_BYTES..][..BLOCK_BYTES]);
}

/// An image, most of them damaged in some way.
pub fn image(rng: &mut Rng) -> Vec<u8> {
    let good = header(rng);
    let code = code(rng, usize::from(good.length));
    let written = if rng.percent(20) { bad_header(rng, good) } else { good };
    let mut image = image::write(&written, &code);
    if rng.percent(25) {
        soil(rng, &mut image, &good);
    }
    for _ in 0..rng.pick(&[0, 0, 0, 1, 1, 1, 2, 3]) {
        damage(rng, &mut image);
    }
    image
}

/// More blocks than words can number, each with its number's low 16 bits.
pub fn endless() -> Vec<u8> {
    let header = [1, 254, 0, 0];
    let mut image = Vec::with_capacity(65_538 * BLOCK_BYTES);
    for number in 0..=65_537u32 {
        let content: &[u16] = if number == 0 { &header } else { &[] };
        image.extend(image::block(number as u16, content));
    }
    image
}
