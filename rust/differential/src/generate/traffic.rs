//! A host and a guest that mostly keep to the rules. Rings fill, drain and wrap.

use super::accesses::{any_access, write};
use super::entries::{any_slot, random_entry, taken_slot};
use super::packets::packet;
use super::revisions::any_acceleration;
use super::ring_length;
use crate::call::Call;
use crate::random::Random;
use crate::world::World;
use thayarqo_model::access::{ACCELERATION, CLIENT_REV, CONTROL, ISR, READ_PTR};
use thayarqo_model::records::{READ_POINTER, WRITE_POINTER};

/// Whether the host or the guest is the faster one just now.
#[derive(Clone, Copy, Debug, PartialEq, Eq)]
pub enum Phase {
    Filling,
    Draining,
}

impl Phase {
    /// Turns about when the ring is full, or empty.
    pub fn turn(&mut self, random: &mut Random, world: &World) {
        let empty = world.area.word(READ_POINTER) == world.area.word(WRITE_POINTER);
        *self = match *self {
            Phase::Filling if random.once_in(20 + ring_length(world.geometry) / 8) => Phase::Draining,
            Phase::Draining if empty && random.once_in(4) || random.once_in(100) => Phase::Filling,
            same => same,
        };
    }
}

pub fn next(random: &mut Random, world: &World, phase: Phase) -> Call {
    let busy = random.below(100) < 75;
    match phase {
        _ if !world.device.on => while_off(random, world),
        Phase::Filling if busy => packet(random, world),
        Phase::Draining if busy => guest(random, world),
        _ => any(random, world),
    }
}

/// Devices are added, then the guest switches on.
fn while_off(random: &mut Random, world: &World) -> Call {
    match random.below(10) {
        0..=3 => add(random, world),
        4 | 5 => write(CLIENT_REV, random.pick(&[2, 2, 2, 1, 1, 1, 0, 3])),
        6 | 7 => write(CONTROL, random.pick(&[1, 3, 3, 3, 2, 0])),
        _ => any(random, world),
    }
}

fn any(random: &mut Random, world: &World) -> Call {
    match random.below(16) {
        0..=2 => packet(random, world),
        3..=6 => guest(random, world),
        7 | 8 => add(random, world),
        9 => remove(random, world),
        10..=12 => lookup(random, world),
        _ => fresh_or_access(random, world),
    }
}

/// Switch-offs and fresh states are rare, so that rings have time to fill.
fn fresh_or_access(random: &mut Random, world: &World) -> Call {
    match random.below(100) {
        0 => Call::FreshDevice,
        1 => Call::FreshDriver,
        2..=4 => write(CONTROL, random.pick(&[0, 1, 2, 3])),
        5..=20 => write(ISR, random.word()),
        21..=40 => write(READ_PTR, next_pointer(random, world)),
        41..=55 => write(ACCELERATION, any_acceleration(random)),
        _ => match any_access(random, world) {
            Call::Write { offset, width, .. } => Call::Read { offset, width },
            read => read,
        },
    }
}

/// The guest's pointer where it is, or some records on.
fn next_pointer(random: &mut Random, world: &World) -> u32 {
    let length = ring_length(world.geometry).max(1);
    let (read, write) = (
        world.area.word(READ_POINTER) % length,
        world.area.word(WRITE_POINTER) % length,
    );
    let unread = (write + length - read) % length;
    (read + random.below(unread + 1)) % length
}

pub fn add(random: &mut Random, world: &World) -> Call {
    Call::Add {
        slot: any_slot(random, world),
        entry: random_entry(random, world.geometry.entry_size),
    }
}

pub fn remove(random: &mut Random, world: &World) -> Call {
    Call::Remove {
        slot: taken_slot(random, world),
    }
}

fn lookup(random: &mut Random, world: &World) -> Call {
    let slot = taken_slot(random, world);
    let out_length = match random.below(24) {
        0 => random.near(&[68, 0, 256]) as usize,
        _ => 68,
    };
    Call::Lookup { slot, out_length }
}

fn guest(random: &mut Random, world: &World) -> Call {
    match random.below(8) {
        0 => copy_out(random, world),
        1 if random.once_in(4) => lookup(random, world),
        _ => any_step(random, world),
    }
}

/// Mostly a step of the reader that the device serves, and now and then one of the other.
pub fn any_step(random: &mut Random, world: &World) -> Call {
    step_in(world.device.is_revision1() != random.once_in(24))
}

/// A step of the reader that the device serves.
pub fn own_step(world: &World) -> Call {
    step_in(world.device.is_revision1())
}

fn step_in(revision1: bool) -> Call {
    match revision1 {
        true => Call::Revision1Step,
        false => Call::Step,
    }
}

fn copy_out(random: &mut Random, world: &World) -> Call {
    let length = ring_length(world.geometry).max(1);
    let limit = match random.below(8) {
        0 => random.pick(&[0, length, u32::MAX]),
        _ => random.below(64),
    };
    let out_length = match random.below(8) {
        0 => random.below(24),
        1 => random.below(4096),
        _ => random.below(512),
    };
    Call::CopyOut {
        limit,
        out_length: out_length as usize,
    }
}
