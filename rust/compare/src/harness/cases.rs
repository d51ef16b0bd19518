//! What a case plays: images, programs, random code, selections, single instructions.

use super::world::{Difference, Lent, Offer, World, SLACK};
use crate::gen::{edgy, focus, images, mutate, programs, turns};
use crate::rng::Rng;
use model::image::{self, Header};
use model::state::{COMMON, DEVICES, MAX_LENGTH, PRIVATE};
use model::words::{self, DEVICES_AT, DEVICE_WORDS, WORDS};
use model::RECORD;

type Played = Result<(), Difference>;

/// Words that the stores hold before a case that doesn't load.
pub struct Pool {
    common: Vec<u16>,
    private: Vec<u16>,
}

impl Default for Pool {
    fn default() -> Self {
        let mut rng = Rng::new(0x5EED);
        let mut words = |count: usize| (0..count).map(|_| edgy(&mut rng)).collect();
        Pool { common: words(COMMON), private: words(PRIVATE) }
    }
}

/// Plays the case; the first one offers an image with too many blocks.
pub fn play(world: &mut World, rng: &mut Rng, pool: &Pool, case: u64) -> Result<(), (&'static str, Difference)> {
    let (kind, played) = match rng.below(20) {
        _ if case == 0 => ("endless image", endless(world)),
        0 => ("images", images(world, rng)),
        1..=7 => ("program", program(world, rng)),
        8..=9 => ("random code", random_code(world, rng)),
        10 => ("selections", selections(world, rng, pool)),
        _ => ("single instructions", scenes(world, rng, pool)),
    };
    played.map_err(|difference| (kind, difference))
}

fn endless(world: &mut World) -> Played {
    world.story = "more blocks than words can number".into();
    world.clear_code(254);
    world.offer(&Offer::Load(images::endless())).map(drop)
}

/// A length near the right one, or far from it.
fn near(rng: &mut Rng, right: usize) -> usize {
    match rng.below(4) {
        // Of the state, two less are the words of layout version 1.
        0 => right.saturating_sub(rng.range(1, 2) as usize),
        1 => right + 1 + rng.index(SLACK),
        2 => 0,
        _ => rng.index(right + 1),
    }
}

fn misfit(rng: &mut Rng, mut lent: Lent) -> Lent {
    for _ in 0..rng.range(1, 2) {
        let length = match rng.below(4) {
            0 => &mut lent.common,
            1 => &mut lent.private,
            2 => &mut lent.code,
            _ => &mut lent.state,
        };
        *length = near(rng, *length);
    }
    lent
}

fn images(world: &mut World, rng: &mut Rng) -> Played {
    for _ in 0..10 {
        world.story = "random image".into();
        let image = images::image(rng);
        let length = image.get(4..6).map_or(0, |pair| usize::from(u16::from_le_bytes([pair[0], pair[1]])));
        let buffer = match rng.below(6) {
            0 => near(rng, length),
            1 => length + 3,
            _ => length,
        };
        world.clear_code(buffer);
        let lent = Lent { common: COMMON, private: PRIVATE, code: buffer, state: WORDS };
        let lent = if rng.percent(25) { misfit(rng, lent) } else { lent };
        world.offer_lending(&Offer::Load(image), &lent)?;
        write(world, rng)?;
    }
    Ok(())
}

fn write(world: &mut World, rng: &mut Rng) -> Played {
    let good = images::header(rng);
    let header = if rng.percent(25) { images::bad_header(rng, good) } else { good };
    let mut count = usize::from(good.length);
    if rng.percent(15) {
        count = near(rng, count);
    }
    let code = images::code(rng, count);
    let bytes = good.blocks() * image::BLOCK_BYTES;
    let out = match rng.below(5) {
        0 => near(rng, bytes),
        1 => bytes + 600,
        _ => bytes,
    };
    world.offer(&Offer::Write(header, code, out)).map(drop)
}

fn load(world: &mut World, header: Header, code: &[u16]) -> Played {
    world.clear_code(code.len());
    let lent = Lent { common: COMMON, private: PRIVATE, code: code.len(), state: WORDS };
    world.offer_lending(&Offer::Load(image::write(&header, code)), &lent).map(drop)
}

fn program(world: &mut World, rng: &mut Rng) -> Played {
    world.story = "program loaded".into();
    let programs::Program { mut code, devices, variables } = programs::program(rng);
    // The longest code there is, now and then.
    if rng.percent(2) {
        code.resize(usize::from(MAX_LENGTH), 5);
    }
    let header = Header { edition: 1, length: code.len() as u16, devices, variables };
    load(world, header, &code)?;
    let offers = rng.pick(&[100, 300, 300, 900]);
    walk(world, rng, offers)
}

fn random_code(world: &mut World, rng: &mut Rng) -> Played {
    world.story = "random code loaded".into();
    let length = rng.range(1, 120) as u32;
    let mut code = Vec::new();
    if rng.percent(30) {
        code = images::code(rng, length as usize);
    }
    while code.len() < length as usize {
        let op = if rng.percent(30) { 1 } else { rng.below(30) as u16 };
        code.extend(focus::instruction(rng, op, length));
    }
    code.truncate(length as usize);
    let header = Header { edition: 1, length: length as u16, devices: rng.below(32) as u16, variables: 16 };
    load(world, header, &code)?;
    walk(world, rng, 40)
}

/// Offers of one instruction or event each, so that every selection is seen.
fn selections(world: &mut World, rng: &mut Rng, pool: &Pool) -> Played {
    world.set_stores(&pool.common, &pool.private);
    let turns::Turns { code, state, offers, hurry } = turns::turns(rng);
    world.story = format!("a state made for selections, code {code:?}");
    world.set_code(&code);
    world.set_state(&words::encode(&state));
    for _ in 0..offers {
        if world.is_stopped() {
            return Ok(());
        }
        let hurried = mutate::slice(world.state(), 190).filter(|_| rng.percent(hurry));
        let offer = match (hurried, rng.below(12)) {
            (Some(change), _) => {
                world.change_state(&[change]);
                Offer::Tick
            }
            (None, 0..=6) => Offer::Step,
            (None, 7) => Offer::Run(1),
            (None, 8) => Offer::Bell,
            (None, 9) => Offer::Tick,
            _ => Offer::Done(likely_busy(world, rng), 0, 0),
        };
        world.offer(&offer)?;
    }
    Ok(())
}

fn scenes(world: &mut World, rng: &mut Rng, pool: &Pool) -> Played {
    world.set_stores(&pool.common, &pool.private);
    for _ in 0..40 {
        let scene = focus::scene(rng);
        world.story = format!("a state made for code {:?}", scene.code);
        world.set_code(&scene.code);
        world.set_state(&words::encode(&scene.state));
        let running = scene.state.running.map_or(0, usize::from);
        for (address, word) in scene.stores {
            world.poke(running, address, word);
        }
        if rng.percent(70) {
            world.offer(&Offer::Step)?;
        }
        let offers = rng.below(5);
        walk(world, rng, offers)?;
        if rng.percent(55) {
            disturb(world, rng)?;
        }
    }
    Ok(())
}

/// Some offer, none of them tuned to be refused.
fn some_offer(world: &World, rng: &mut Rng) -> Offer {
    let idle = world.is_idle();
    let roll = if idle { rng.range(56, 100) } else { rng.range(0, 100) };
    match roll {
        0..=50 => Offer::Step,
        51..=66 => Offer::Run(match rng.below(50) {
            // An idle machine spends no budget.
            0..=5 if idle => u32::MAX,
            0 => rng.below(3000),
            1..=10 => rng.below(3),
            11..=20 => rng.below(200),
            _ => rng.below(40),
        }),
        67..=83 => Offer::Tick,
        84..=88 => Offer::Bell,
        89 => Offer::IsSound,
        90 => Offer::Step,
        92 | 93 => some_record(world, rng),
        91 => Offer::Done(edgy(rng), edgy(rng), edgy(rng)),
        _ => {
            let device = likely_busy(world, rng);
            let status = if rng.percent(55) { 0 } else { rng.below(8) as u16 };
            Offer::Done(device, status, edgy(rng))
        }
    }
}

/// A busy device where there is one.
fn likely_busy(world: &World, rng: &mut Rng) -> u16 {
    let busy = |device: &usize| world.state()[DEVICES_AT + device * DEVICE_WORDS] != 10;
    let first = rng.index(DEVICES);
    (0..DEVICES).map(|turn| (first + turn) % DEVICES).find(busy).unwrap_or(first) as u16
}

/// A device's record, with room for it or not.
fn some_record(world: &World, rng: &mut Rng) -> Offer {
    let device = if rng.percent(85) { likely_busy(world, rng) } else { edgy(rng) };
    let room = if rng.percent(75) { RECORD } else { rng.index(RECORD + SLACK + 1) };
    Offer::Record(device, room)
}

/// Offers in any order; some of them to a machine brought near an edge.
fn walk(world: &mut World, rng: &mut Rng, offers: u32) -> Played {
    for _ in 0..offers {
        if world.is_stopped() {
            for _ in 0..2 {
                let offer = some_offer(world, rng);
                world.offer(&offer)?;
            }
            return Ok(());
        }
        match rng.below(200) {
            0..=5 => {
                let change = mutate::nudge(rng, world.state());
                world.change_state(&[change]);
            }
            6 => disturb(world, rng)?,
            7 => {
                let (offer, lent) = (some_offer(world, rng), misfit(rng, world.lent()));
                world.offer_lending(&offer, &lent)?;
            }
            _ => {
                let offer = some_offer(world, rng);
                world.offer(&offer)?;
            }
        }
    }
    Ok(())
}

/// A changed state: put right again if it was refused, else kept.
fn disturb(world: &mut World, rng: &mut Rng) -> Played {
    for _ in 0..rng.range(1, 4) {
        let changes = match rng.percent(75) {
            true => vec![mutate::word(rng, world.state())],
            false => mutate::several(rng, world.state()),
        };
        let before = world.state().to_vec();
        let story = std::mem::take(&mut world.story);
        world.story = format!("{story}; then {}", mutate::describe(&changes));
        world.change_state(&changes);
        let sound = world.offer(&Offer::IsSound)? == 1;
        for _ in 0..rng.range(1, 2) {
            let offer = some_offer(world, rng);
            let lent = if rng.percent(10) { misfit(rng, world.lent()) } else { world.lent() };
            world.offer_lending(&offer, &lent)?;
        }
        if !sound {
            world.set_state(&before);
            world.story = story;
        }
    }
    Ok(())
}
