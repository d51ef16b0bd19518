//! What an offer is answered, as the number of the C interface.

use super::image::Damage;

/// Taken, with what stands above the number's low 8 bits, or refused.
pub type Answer = Result<u64, Refusal>;

/// A row of the table of refusals.
#[derive(Clone, Copy, Debug, PartialEq, Eq)]
pub enum Refusal {
    Damage(Damage),
    Lent,
    Unsound,
    Stopped,
    BadDone,
    Short,
}

impl Refusal {
    pub fn number(self) -> u64 {
        match self {
            Refusal::Damage(damage) => damage.number(),
            Refusal::Lent => 6,
            Refusal::Unsound => 7,
            Refusal::Stopped => 8,
            Refusal::BadDone => 9,
            Refusal::Short => 10,
        }
    }

    /// The block that refusal 2 names, 0 for the others.
    pub fn block(self) -> u64 {
        match self {
            Refusal::Damage(Damage::Block(block)) => u64::from(block),
            _ => 0,
        }
    }
}
