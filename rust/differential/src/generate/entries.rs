//! Entries to add, and slots to name.

use super::slots;
use crate::random::Random;
use crate::world::World;
use thayarqo_model::device::NO_SLOT;
use thayarqo_model::geometry::Geometry;

/// evbits, absbits, relbits and btnbits of a mouse, a tablet with a mouse, a pen, a touch panel and a pedal board.
const KINDS: [[u32; 7]; 5] = [
    [0b0111, 0, 0, 0x103, 0xFF0000, 0, 0],
    [0b1111, 0x0000_0007, 0, 0x143, 0xFF0000, 0, 0],
    [0b1011, 0x0100_0003, 0, 0, 0, 0, 0x1C63],
    [0b1001, 0x8000, 0x0260_8000, 0, 0, 0, 0],
    [0b0011, 0, 0, 0, 0xFFFF, 0, 0x8000_0001],
];

/// Mostly a good entry of the right size.
pub fn random_entry(random: &mut Random, entry_size: u32) -> Vec<u8> {
    let right = entry_size.min(512) as usize;
    let length = match random.below(64) {
        0 => random.near(&[right as u32, 68, 0]).min(512) as usize,
        _ => right,
    };
    let mut entry = random.bytes(length);
    if length < 68 {
        return entry;
    }
    match random.below(8) {
        0 => {}
        1 => entry[40] &= !1,
        2 => entry[40] |= 0b1111,
        _ => {
            let kind = random.pick(&KINDS);
            for (at, mask) in (40..68).step_by(4).zip(kind) {
                entry[at..at + 4].copy_from_slice(&mask.to_le_bytes());
            }
        }
    }
    entry
}

/// Takes some slots, with entries as they come. The sizes are allowed.
pub fn plug_in(random: &mut Random, world: &mut World, geometry: Geometry) {
    world.device.taken = random.number() & random.number() & ((1 << geometry.slots()) - 1);
    for slot in world.device.taken_slots() {
        let mut entry = random_entry(random, geometry.entry_size);
        entry.truncate(geometry.entry_size as usize);
        world.page.scribble(geometry.entry_at(slot), &entry);
    }
}

/// Mostly a taken slot, where there is one.
pub fn taken_slot(random: &mut Random, world: &World) -> u32 {
    let taken = world.device.taken_slots();
    if taken.is_empty() || random.once_in(24) {
        any_slot(random, world)
    } else {
        random.pick(&taken)
    }
}

/// Any slot in range, and now and then one that isn't.
pub fn any_slot(random: &mut Random, world: &World) -> u32 {
    let slots = slots(world.geometry);
    match random.below(12) {
        0 => random.near(&[slots, 64, 0xFFFF, NO_SLOT, u32::MAX, 0]),
        1 => random.word(),
        2 => world.device.current_slot,
        _ => random.below(slots),
    }
}
