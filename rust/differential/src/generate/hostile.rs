//! A guest that stores impossible pointers, and scribbles over pages that it may see.

use super::accesses::{any_access, any_pointer};
use super::traffic::any_step;
use super::{ring_length, slots, Action};
use crate::random::Random;
use crate::world::{Change, World};
use thayarqo_model::device::NO_SLOT;
use thayarqo_model::records::{EV_DEV, EV_SYN, READ_POINTER, WRITE_POINTER};

pub fn next(random: &mut Random, world: &World) -> Action {
    match random.below(16) {
        0..=2 => store(READ_POINTER, any_pointer(random, world)),
        3 => store(READ_POINTER, world.device.write_index),
        4 => store(WRITE_POINTER, any_pointer(random, world)),
        5 => store(WRITE_POINTER, world.device.write_index),
        6..=9 => Action::Change(scribbled_record(random, world)),
        10 => Action::Change(Change::Area {
            at: random.below(world.area.bytes().len() as u32) as usize,
            bytes: some_bytes(random),
        }),
        11 => Action::Change(Change::Page {
            at: random.below(4096) as usize,
            bytes: some_bytes(random),
        }),
        12 => Action::Call(any_step(random, world)),
        _ => Action::Call(any_access(random, world)),
    }
}

fn store(at: usize, word: u32) -> Action {
    Action::Change(Change::Area {
        at,
        bytes: word.to_le_bytes().to_vec(),
    })
}

fn some_bytes(random: &mut Random) -> Vec<u8> {
    let length = 1 + random.below(40) as usize;
    random.bytes(length)
}

/// A record next to the read pointer, with numbers at the edges of what a driver takes.
fn scribbled_record(random: &mut Random, world: &World) -> Change {
    let length = ring_length(world.geometry).max(1);
    let index = (world.area.word(READ_POINTER) % length + random.below(6)) % length;
    let kind = match random.below(8) {
        0..=4 => EV_DEV,
        5 | 6 => EV_SYN,
        _ => random.word() as u16,
    };
    let code = random.below(5) as u16;
    let value = match random.below(8) {
        0..=5 => {
            let edge = slots(world.geometry);
            random.near(&[edge, 0xFFFF, u32::MAX, NO_SLOT, 0, world.driver.slot])
        }
        6 => random.below(64),
        _ => random.word(),
    };
    let mut bytes = Vec::with_capacity(8);
    bytes.extend(kind.to_le_bytes());
    bytes.extend(code.to_le_bytes());
    bytes.extend(value.to_le_bytes());
    Change::Area {
        at: world.geometry.record_size as usize * (index as usize + 1),
        bytes,
    }
}
