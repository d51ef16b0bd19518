//! The two that are timed: the proved library, and the independent interpreter in plain Rust behind the same interface.

use crate::world::World;
use model::Model;
use plumbsorrel::slices;

pub enum Side {
    Proved,
    Plain(Model),
}

/// What is offered in a round. A run with no budget does all that a step does but the instruction.
#[derive(Clone, Copy)]
pub enum Offer {
    Run(u32),
    Tick,
    Bell,
    Done(u16, u16, u16),
    Sound,
}

impl Side {
    pub fn plain() -> Self {
        Side::Plain(Model::new(None))
    }

    pub fn offer(&mut self, w: &mut World, offer: Offer) -> u64 {
        let World { code, common, private, state } = w;
        match (self, offer) {
            (Side::Proved, Offer::Run(budget)) => slices::run(code, budget, common, private, state),
            (Side::Proved, Offer::Tick) => slices::tick(state),
            (Side::Proved, Offer::Bell) => slices::bell(state),
            (Side::Proved, Offer::Done(d, status, arg)) => slices::done(d, status, arg, common, private, state),
            (Side::Proved, Offer::Sound) => slices::is_sound(state),
            (Side::Plain(model), Offer::Run(budget)) => model.run(code, budget, common, private, state),
            (Side::Plain(model), Offer::Tick) => model.tick(state),
            (Side::Plain(model), Offer::Bell) => model.bell(state),
            (Side::Plain(model), Offer::Done(d, status, arg)) => model.done(d, status, arg, common, private, state),
            (Side::Plain(model), Offer::Sound) => model.is_sound(state),
        }
    }
}
