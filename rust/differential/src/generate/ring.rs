//! The keyboard ring: events put and taken, and a page that is scribbled over.

use super::traffic::Phase;
use super::Action;
use crate::call::Call;
use crate::random::Random;
use crate::world::{Change, World};
use thayarqo_model::geometry::PAGE;
use thayarqo_model::ring::RING_PLACES;
use thayarqo_model::ring_event::{RingNumbers, KEY, MOTION, MTOUCH, MT_ORIENT, POS, RING_EVENT};
use thayarqo_model::Model;

const IN_CONS: usize = 0;
const IN_PROD: usize = 4;

/// Damages are mended soon, so that there is a life between two of them.
pub fn next(random: &mut Random, world: &World, phase: Phase) -> Action {
    if let Some(change) = mended(world).filter(|_| random.once_in(4)) {
        return Action::Change(change);
    }
    let fill = (phase == Phase::Filling) == (random.below(100) < 75);
    match random.below(40) {
        0 => Action::Change(scribble(random, world)),
        1 if random.once_in(4) => Action::Change(other_indices(random, world)),
        2 => Action::Call(encode(random)),
        3 | 4 => Action::Call(Call::RingDecode {
            bytes: event_bytes(random),
            limit: limit(random),
        }),
        _ if fill => Action::Call(Call::RingPut {
            event: event_bytes(random),
            limit: limit(random),
        }),
        _ => Action::Call(Call::RingTake { limit: limit(random) }),
    }
}

/// Mostly the most contacts that there can be, so that few events are refused for theirs.
fn limit(random: &mut Random) -> u32 {
    match random.below(16) {
        0 => random.near(&[0, 1, 32, u32::MAX]),
        1 => 1 + random.below(32),
        _ => 32,
    }
}

fn encode(random: &mut Random) -> Call {
    let out_length = match random.below(8) {
        0 => random.near(&[RING_EVENT as u32, 0, 64]) as usize,
        _ => RING_EVENT,
    };
    Call::RingEncode {
        event: event(random),
        out_length,
    }
}

fn event(random: &mut Random) -> RingNumbers {
    let kind = match random.below(16) {
        0 => random.word() as u8,
        _ => random.pick(&[MOTION, KEY, POS, MTOUCH, MTOUCH, MTOUCH]),
    };
    let subtype = match random.below(16) {
        0 => random.word() as u8,
        _ => random.below(u32::from(MT_ORIENT) + 1) as u8,
    };
    let contact = match random.below(8) {
        0 => random.near(&[32, 0, 255]) as u8,
        _ => random.below(32) as u8,
    };
    RingNumbers {
        kind,
        subtype,
        contact,
        pressed: random.once_in(2),
        x: random.word() as i32,
        y: random.word() as i32,
        z: random.word() as i32,
        keycode: random.word(),
        major: random.word(),
        minor: random.word(),
        orientation: random.word() as i16,
    }
}

/// Mostly a good event's bytes; else one byte changed, other bytes, or another length.
pub fn event_bytes(random: &mut Random) -> Vec<u8> {
    let mut bytes = vec![0; RING_EVENT];
    Model::default().encode(&event(random), &mut bytes);
    match random.below(32) {
        0..=2 => bytes[random.below(RING_EVENT as u32) as usize] = random.word() as u8,
        3 | 4 => bytes[random.below(4) as usize] = random.below(8) as u8,
        5 => {
            bytes = random.bytes(RING_EVENT);
            bytes[0] = random.below(8) as u8;
        }
        6 => bytes.resize(random.near(&[RING_EVENT as u32, 0, 64]).min(80) as usize, 0),
        _ => {}
    }
    bytes
}

/// The first thing to mend, if any: the page's length, or an index that is impossible to the other end.
fn mended(world: &World) -> Option<Change> {
    let (in_cons, in_prod) = (world.ring_page.word(IN_CONS), world.ring_page.word(IN_PROD));
    if world.ring_page.bytes().len() != PAGE {
        Some(Change::RingPageLength(PAGE))
    } else if world.in_prod.wrapping_sub(in_cons) > RING_PLACES {
        Some(stored(IN_CONS, world.in_prod))
    } else if in_prod.wrapping_sub(world.in_cons) > RING_PLACES {
        Some(Change::RingIndices {
            in_prod: world.in_prod,
            in_cons: in_prod,
        })
    } else {
        None
    }
}

/// An index that both ends and the page begin at: 0, near the turn at 2^32, or any.
pub fn begin(random: &mut Random, world: &mut World) {
    let index = match random.below(3) {
        0 => 0,
        1 => random.below(120).wrapping_sub(100),
        _ => random.word(),
    };
    (world.in_prod, world.in_cons) = (index, index);
    world.ring_page.load(&[0; PAGE]);
    for at in [IN_CONS, IN_PROD] {
        world.ring_page.scribble(at, &index.to_le_bytes());
    }
}

/// Private indices that the page doesn't have.
fn other_indices(random: &mut Random, world: &World) -> Change {
    Change::RingIndices {
        in_prod: near_index(random, world.ring_page.word(IN_CONS)),
        in_cons: near_index(random, world.ring_page.word(IN_PROD)),
    }
}

fn stored(at: usize, index: u32) -> Change {
    Change::RingPage {
        at,
        bytes: index.to_le_bytes().to_vec(),
    }
}

/// Whatever the other end may write.
fn scribble(random: &mut Random, world: &World) -> Change {
    match random.below(8) {
        0 => stored(IN_CONS, near_index(random, world.in_prod)),
        1 => stored(IN_PROD, near_index(random, world.in_cons)),
        2..=4 => Change::RingPage {
            at: 1024 + RING_EVENT * (world.in_cons % RING_PLACES) as usize,
            bytes: event_bytes(random),
        },
        5 | 6 => Change::RingPage {
            at: random.below(PAGE as u32) as usize,
            bytes: random.bytes(9),
        },
        _ => Change::RingPageLength(random.near(&[4096, 0, 1024]) as usize),
    }
}

/// An index that makes the distance empty, full, impossible, or anything.
fn near_index(random: &mut Random, index: u32) -> u32 {
    match random.below(4) {
        0 => random.word(),
        1 => index.wrapping_add(random.below(RING_PLACES + 1)),
        _ => random.near(&[index, index.wrapping_sub(RING_PLACES), index.wrapping_add(RING_PLACES)]),
    }
}
