//! A whole comparison from a seed, and the trial of the planted faults.

use super::cases::{self, Pool};
use super::world::World;
use crate::link::Library;
use crate::rng::Rng;
use model::planted::Planted;
use model::Model;
use std::ops::Range;

/// Where a comparison stopped with a difference.
pub struct Found {
    pub case: u64,
    pub kind: &'static str,
    pub differences: Vec<String>,
}

/// Plays `cases` until `steps` instructions are compared; how many it played.
pub fn compare(world: &mut World, seed: u64, cases: Range<u64>, steps: u64) -> Result<u64, Found> {
    let pool = Pool::default();
    let mut played = 0;
    for case in cases {
        if world.steps >= steps {
            break;
        }
        let mut rng = Rng::for_case(seed, case);
        cases::play(world, &mut rng, &pool, case).map_err(|(kind, difference)| Found {
            case,
            kind,
            differences: difference.0,
        })?;
        played += 1;
    }
    Ok(played)
}

/// Whether every planted fault was found within `steps` beside the library; prints a table.
pub fn try_planted(seed: u64, steps: u64, library: impl Fn() -> Box<dyn Library>) -> bool {
    println!("{:<40} {:>9} {:>9}  found by", "planted fault", "steps", "offers");
    let mut all = true;
    for planted in Planted::all() {
        let mut world = World::new(Model::new(Some(planted)), library());
        match compare(&mut world, seed, 0..u64::MAX, steps) {
            Err(found) => {
                println!("{:<40} {:>9} {:>9}  {}", planted.name(), world.steps, world.offers, found.kind);
            }
            Ok(_) => {
                println!("{:<40} {:>9} {:>9}  NOT FOUND", planted.name(), world.steps, world.offers);
                all = false;
            }
        }
    }
    all
}

#[cfg(test)]
mod tests {
    use super::*;

    /// What is found where the model and the library have the same fault.
    fn found_in_both(planted: Planted) -> Option<String> {
        let mut world = World::new(Model::new(Some(planted)), Box::new(Model::new(Some(planted))));
        let found = compare(&mut world, 1, 1..u64::MAX, 1_000_000).err()?;
        found.differences.last().cloned()
    }

    /// The model agrees with the library, so it is the watcher alone who says it.
    #[test]
    fn a_bound_broken_on_both_sides_is_found() {
        let starved = found_in_both(Planted::LowestStarves).expect("a difference");
        assert!(starved.contains("of class 2 and does not run by selection"), "{starved}");
        let delayed = found_in_both(Planted::EightIsSeven).expect("a difference");
        assert!(delayed.contains("place 8 of class 0 and does not run by selection 9"), "{delayed}");
        assert_eq!(found_in_both(Planted::NeverMarked), None);
    }
}
