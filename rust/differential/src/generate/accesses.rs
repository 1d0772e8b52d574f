//! Reads and writes by the guest.

use super::revisions::any_acceleration;
use super::ring_length;
use crate::call::Call;
use crate::random::Random;
use crate::world::World;
use thayarqo_model::access::{
    ACCELERATION, CLIENT_REV, CONF_SIZE, CONTROL, EVENT_SIZE, ISR, MAGIC, NPAGES, READ_PTR, REV,
};
use thayarqo_model::records::{READ_POINTER, WRITE_POINTER};

const REGISTERS: [u64; 10] = [
    MAGIC,
    REV,
    CONTROL,
    EVENT_SIZE,
    NPAGES,
    ACCELERATION,
    ISR,
    CONF_SIZE,
    CLIENT_REV,
    READ_PTR,
];

pub fn write(offset: u64, value: u32) -> Call {
    Call::Write {
        offset,
        width: 4,
        value,
    }
}

/// Any place, width and value; mostly ones that mean something.
pub fn any_access(random: &mut Random, world: &World) -> Call {
    let offset = any_offset(random, world);
    let width = match random.below(32) {
        0 => random.pick(&[0, 1, 2, 3, 5, 8, u32::MAX]),
        _ => 4,
    };
    if random.once_in(2) {
        return Call::Read { offset, width };
    }
    let value = match offset {
        CONTROL => random.pick(&[1, 3, 3, 1, 0, 2, u32::MAX]),
        CLIENT_REV => random.pick(&[2, 2, 1, 1, 0, 3, 257, 258, u32::MAX]),
        ACCELERATION => any_acceleration(random),
        READ_PTR => any_pointer(random, world),
        _ => random.word(),
    };
    Call::Write { offset, width, value }
}

/// An access that leaves the device on and the read pointer where it is.
pub fn quiet_access(random: &mut Random, world: &World) -> Call {
    let mut access = any_access(random, world);
    if let Call::Write { offset, value, .. } = &mut access {
        match *offset {
            CONTROL => *value |= 1,
            READ_PTR => *value = world.area.word(READ_POINTER),
            _ => {}
        }
    }
    access
}

fn any_offset(random: &mut Random, world: &World) -> u64 {
    let bar = (u64::from(world.geometry.pages) + 2) * 4096;
    match random.below(16) {
        0..=9 => random.pick(&REGISTERS),
        10 => random.number(),
        11 => u64::from(random.below(4096)) & !3,
        12 => 4096 + (u64::from(random.below(bar as u32)) & !3),
        13 => u64::from(random.below(bar as u32)),
        14 => bar.wrapping_add(4).wrapping_sub(u64::from(random.below(8))),
        _ => bar - 4096 - 4 + 4 * u64::from(random.below(3)),
    }
}

/// A read pointer: near the write pointer, near the ring's length, or any number.
pub fn any_pointer(random: &mut Random, world: &World) -> u32 {
    let length = ring_length(world.geometry);
    match random.below(8) {
        0..=4 => random.near(&[
            length,
            world.device.write_index,
            world.area.word(WRITE_POINTER),
            world.area.word(READ_POINTER),
            0,
        ]),
        5 | 6 => random.below(length.max(1)),
        _ => random.word(),
    }
}
