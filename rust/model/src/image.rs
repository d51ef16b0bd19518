//! Images: blocks of 256 little-endian words with numbers and checks.

use super::answer::{Answer, Refusal};
use super::planted::Planted;
use super::state::{MAX_LENGTH, MAX_VARIABLES};

pub const BLOCK_BYTES: usize = 512;
pub const BLOCK_WORDS: usize = 256;
pub const CONTENT_WORDS: usize = 254;
const HEADER_WORDS: usize = 4;

#[derive(Clone, Copy, Debug, PartialEq, Eq)]
pub struct Header {
    pub edition: u16,
    pub length: u16,
    pub devices: u16,
    pub variables: u16,
}

impl Header {
    pub fn is_in_range(&self) -> bool {
        self.edition == 1
            && (1..=MAX_LENGTH).contains(&self.length)
            && self.devices <= 31
            && self.variables <= MAX_VARIABLES
    }

    pub fn blocks(&self) -> usize {
        1 + usize::from(self.length).div_ceil(CONTENT_WORDS)
    }
}

/// Refusals 1 to 5.
#[derive(Clone, Copy, Debug, PartialEq, Eq)]
pub enum Damage {
    Length,
    Block(u32),
    Header,
    Count,
    Fill,
}

impl Damage {
    pub fn number(self) -> u64 {
        match self {
            Damage::Length => 1,
            Damage::Block(_) => 2,
            Damage::Header => 3,
            Damage::Count => 4,
            Damage::Fill => 5,
        }
    }
}

fn word(block: &[u8], index: usize) -> u16 {
    u16::from_le_bytes([block[2 * index], block[2 * index + 1]])
}

fn sum(block: &[u8]) -> u16 {
    (0..BLOCK_WORDS).fold(0, |sum: u16, index| sum.wrapping_add(word(block, index)))
}

/// Refusal 2 for the first block whose check or number is wrong.
fn check_blocks(blocks: &[&[u8]], planted: Option<Planted>) -> Result<(), Damage> {
    for (number, block) in blocks.iter().enumerate() {
        let numbered = match planted {
            Some(Planted::BlockNumberWraps) => usize::from(word(block, 0)) == number & 0xFFFF,
            _ => usize::from(word(block, 0)) == number,
        };
        if sum(block) != u16::MAX || !numbered {
            return Err(Damage::Block(number as u32));
        }
    }
    Ok(())
}

/// The header of an undamaged image, and its code.
pub fn read(image: &[u8], planted: Option<Planted>) -> Result<(Header, Vec<u16>), Damage> {
    if image.is_empty() || !image.len().is_multiple_of(BLOCK_BYTES) {
        return Err(Damage::Length);
    }
    let blocks: Vec<&[u8]> = image.chunks_exact(BLOCK_BYTES).collect();
    let header = Header {
        edition: word(blocks[0], 1),
        length: word(blocks[0], 2),
        devices: word(blocks[0], 3),
        variables: word(blocks[0], 4),
    };
    let looked_at = match planted {
        Some(Planted::SurplusUnchecked) => header.blocks().min(blocks.len()),
        _ => blocks.len(),
    };
    check_blocks(&blocks[..looked_at], planted)?;
    let after_header = 1 + HEADER_WORDS..=CONTENT_WORDS;
    if !header.is_in_range() || after_header.into_iter().any(|index| word(blocks[0], index) != 0) {
        return Err(Damage::Header);
    }
    if blocks.len() != header.blocks() {
        return Err(Damage::Count);
    }
    let mut code: Vec<u16> = Vec::with_capacity((blocks.len() - 1) * CONTENT_WORDS);
    for block in &blocks[1..] {
        code.extend((1..=CONTENT_WORDS).map(|index| word(block, index)));
    }
    let fill = code.split_off(usize::from(header.length));
    if planted != Some(Planted::FillUnchecked) && fill.iter().any(|&word| word != 0) {
        return Err(Damage::Fill);
    }
    Ok((header, code))
}

/// One block with its number and check.
pub fn block(number: u16, content: &[u16]) -> [u8; BLOCK_BYTES] {
    let mut words = [0u16; BLOCK_WORDS];
    words[0] = number;
    words[1..=content.len()].copy_from_slice(content);
    let sum = words.iter().fold(0u16, |sum, &word| sum.wrapping_add(word));
    words[BLOCK_WORDS - 1] = u16::MAX.wrapping_sub(sum);
    let mut bytes = [0; BLOCK_BYTES];
    for (pair, word) in bytes.chunks_exact_mut(2).zip(words) {
        pair.copy_from_slice(&word.to_le_bytes());
    }
    bytes
}

/// The image of a header and its code; neither is tested.
pub fn write(header: &Header, code: &[u16]) -> Vec<u8> {
    let fields = [header.edition, header.length, header.devices, header.variables];
    let mut image = block(0, &fields).to_vec();
    for (content, number) in code.chunks(CONTENT_WORDS).zip(1..) {
        image.extend_from_slice(&block(number, content));
    }
    image
}

/// Writing as it is offered: refusals 3, 6 and 10.
pub fn offer(header: &Header, code: &[u16], out: &mut [u8], planted: Option<Planted>) -> Answer {
    if !header.is_in_range() {
        return Err(Refusal::Damage(Damage::Header));
    }
    if code.len() != usize::from(header.length) {
        return Err(Refusal::Lent);
    }
    let image = write(header, code);
    let Some(place) = out.get_mut(..image.len()) else { return Err(Refusal::Short) };
    place.copy_from_slice(&image);
    if planted == Some(Planted::WriteTouchesMore) {
        out[image.len()..].fill(0);
    }
    Ok(image.len() as u64)
}
