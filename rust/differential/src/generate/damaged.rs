//! A caller that passes broken states, buffers of wrong lengths and other sizes.

use super::revisions::any_position;
use super::{ring_length, slots, Action};
use crate::random::Random;
use crate::world::{Change, World};
use thayarqo_model::device::{Device, NO_SLOT};
use thayarqo_model::driver::{Driver, UNKNOWN_SLOT};
use thayarqo_model::geometry::{Geometry, PAGE};
use thayarqo_model::packet::{MOST_EVENTS, PACKET};

/// Sooner where something is to be mended, so that there is a life between two damages.
pub fn is_due(random: &mut Random, world: &World, geometry: Geometry) -> bool {
    let often = if mended(world, geometry).is_some() { 3 } else { 30 };
    random.once_in(often)
}

pub fn next(random: &mut Random, world: &World, geometry: Geometry) -> Action {
    let change = mended(world, geometry).unwrap_or_else(|| damage(random, world, geometry));
    Action::Change(change)
}

/// The first thing to mend, if any.
fn mended(world: &World, geometry: Geometry) -> Option<Change> {
    if world.geometry != geometry {
        Some(Change::Geometry(geometry))
    } else if world.area.bytes().len() != geometry.area_length() {
        Some(Change::AreaLength(geometry.area_length()))
    } else if world.page.bytes().len() != PAGE {
        Some(Change::PageLength(PAGE))
    } else if world.packet.bytes().len() != PACKET {
        Some(Change::PacketLength(PACKET))
    } else if !geometry.is_allowed() {
        None
    } else if !world.device.is_sound(geometry) {
        Some(Change::Device(Device::fresh()))
    } else if !world.driver.is_sound(geometry) {
        Some(Change::Driver(Driver::fresh()))
    } else {
        None
    }
}

fn damage(random: &mut Random, world: &World, geometry: Geometry) -> Change {
    match random.below(10) {
        0 => Change::Geometry(other_geometry(random, geometry)),
        1 => {
            let length = geometry.area_length() as u32;
            let other = random.near(&[length, length.wrapping_add(4096), length.saturating_sub(4096), 0]);
            Change::AreaLength(other as usize)
        }
        2 => Change::PageLength(random.near(&[4096, 4096, 0, 68]) as usize),
        3 => Change::PacketLength(random.near(&[256, 256, 248, 264, 8, 0, u32::MAX]) as usize),
        4 => Change::Packet {
            at: random.below(PACKET as u32) as usize,
            bytes: random.bytes(PACKET),
        },
        5..=7 => Change::Device(other_device(random, world.device, geometry)),
        _ => Change::Driver(other_driver(random, world.driver, geometry)),
    }
}

/// One of the sizes changed, to an allowed or another number.
pub fn other_geometry(random: &mut Random, mut geometry: Geometry) -> Geometry {
    match random.below(3) {
        0 => geometry.pages = random.near(&[1, 8, 9, 0, u32::MAX]),
        1 => geometry.record_size = random.near(&[8, 16, 32, 64, 128, 4, 0, u32::MAX]),
        _ => geometry.entry_size = random.near(&[68, 72, 256, 260, 64, 0, u32::MAX]),
    }
    geometry
}

fn other_device(random: &mut Random, mut device: Device, geometry: Geometry) -> Device {
    match random.below(14) {
        0 => device.on = !device.on,
        1 => device.interrupts = !device.interrupts,
        2 => device.isr = !device.isr,
        3 => device.lost = !device.lost,
        4 => device.client_rev_written = !device.client_rev_written,
        5 => device.client_rev = random.pick(&[0, 1, 2, 3, 257, 258]),
        6 => (device.client_rev_written, device.client_rev) = (random.once_in(2), random.below(4) as u16),
        7 | 8 => device.acceleration = random.pick(&[0, 1, 10, 20, 21, 266]),
        9 => device.position = any_position(random),
        10 => device.write_index = random.near(&[ring_length(geometry), 0, u32::MAX]),
        11 => device.taken ^= 1 << random.below(64),
        12 => device.taken = random.number() & random.number(),
        _ => {
            device.current_slot = match random.below(4) {
                0 => random.near(&[NO_SLOT, slots(geometry), 63]),
                1 => random.word(),
                _ => random.below(64),
            }
        }
    }
    device
}

fn other_driver(random: &mut Random, mut driver: Driver, geometry: Geometry) -> Driver {
    match random.below(5) {
        0 => driver.overlong = !driver.overlong,
        1 => driver.spoiled = !driver.spoiled,
        2 => driver.ignoring = !driver.ignoring,
        3 => driver.held = random.near(&[0, MOST_EVENTS as u32, 7, u32::MAX]),
        _ => driver.slot = random.near(&[slots(geometry), UNKNOWN_SLOT, NO_SLOT, 3]),
    }
    driver
}
