//! Packets, mostly of events that the slot offers.

use super::entries::taken_slot;
use super::revision1;
use crate::call::Call;
use crate::random::Random;
use crate::world::{World, MOST_INPUT};
use thayarqo_model::packet::bytes_of;
use thayarqo_model::records::{Event, EV_ABS, EV_KEY, EV_REL, EV_SYN, SYN_MT_REPORT};

/// A put of any number of events, and now and then of bytes that aren't whole events.
pub fn packet(random: &mut Random, world: &World) -> Call {
    let (slot, events) = match world.device.is_revision1() {
        true => revision1::events(random, world),
        false => events(random, world),
    };
    let mut packet = bytes_of(&events);
    if random.once_in(48) {
        let length = random.near(&[packet.len() as u32, 12, 256, MOST_INPUT as u32]);
        packet.resize(MOST_INPUT.min(length as usize), random.word() as u8);
    }
    Call::PutPacket { slot, packet }
}

fn events(random: &mut Random, world: &World) -> (u32, Vec<Event>) {
    let slot = taken_slot(random, world);
    let count = match random.below(16) {
        0..=7 => 1 + random.below(4),
        8..=14 => 1 + random.below(32),
        _ => random.pick(&[0, 0, 1, 31, 32, 33, 33, 64]),
    };
    // One packet in eight may hold an event that isn't offered.
    let careless = random.once_in(8);
    let event = |_| match careless && random.once_in(8) {
        true => any_event(random),
        false => offered_event(random, world, slot),
    };
    (slot, (0..count).map(event).collect())
}

pub fn any_event(random: &mut Random) -> Event {
    let kind = match random.below(8) {
        0 => random.word() as u16,
        kind => kind as u16 - 1,
    };
    let code = random.near(&[0, 2, 31, 63, 95, 0x100, 0x15F, 0xFFFF]);
    Event::new(kind, code as u16, random.word())
}

/// A bit of a mask in the entry of a slot.
fn is_set(world: &World, slot: u32, mask: usize, bit: u32) -> bool {
    let entry = world.geometry.entry_size as usize * slot.min(64) as usize;
    world.page.word(entry + mask + bit as usize / 32 * 4) >> (bit % 32) & 1 == 1
}

/// Whether a slot offers an event of one of the codes that revision 1 has a form for.
pub fn is_offered(world: &World, slot: u32, kind: u16, code: u16) -> bool {
    let code_is_offered = match kind {
        EV_KEY => is_set(world, slot, 56, u32::from(code) - 0x100),
        EV_ABS => is_set(world, slot, 44, u32::from(code)),
        _ => true,
    };
    code_is_offered && is_set(world, slot, 40, u32::from(kind))
}

/// An event of a bit that is set in the entry of a slot; some other one where none is found.
pub fn offered_event(random: &mut Random, world: &World, slot: u32) -> Event {
    for _ in 0..32 {
        let kind = random.pick(&[EV_SYN, EV_KEY, EV_KEY, EV_REL, EV_ABS, EV_ABS]);
        let found = is_set(world, slot, 40, u32::from(kind))
            .then(|| match kind {
                EV_SYN => random.once_in(8).then_some(SYN_MT_REPORT),
                EV_REL => Some(random.below(32) as u16),
                EV_KEY => bit_set(random, 96, |bit| is_set(world, slot, 56, bit)).map(|bit| 0x100 + bit),
                _ => bit_set(random, 64, |bit| is_set(world, slot, 44, bit)),
            })
            .flatten();
        if let Some(code) = found {
            return Event::new(kind, code, random.word());
        }
    }
    any_event(random)
}

/// A bit of a mask that is set, searched from a random one upwards.
fn bit_set(random: &mut Random, bits: u32, is_set: impl Fn(u32) -> bool) -> Option<u16> {
    let first = random.below(bits);
    (first..bits)
        .chain(0..first)
        .find(|&bit| is_set(bit))
        .map(|bit| bit as u16)
}

#[cfg(test)]
mod tests {
    use super::*;
    use thayarqo_model::geometry::Geometry;

    #[test]
    fn lengths_on_both_sides_of_each_edge_come() {
        let mut world = World::new(Geometry {
            pages: 1,
            record_size: 8,
            entry_size: 68,
        });
        let mut random = Random::new(1);
        for client_rev in [1, 2] {
            (world.device.client_rev_written, world.device.client_rev) = (true, client_rev);
            let mut seen = [false; MOST_INPUT + 1];
            for _ in 0..10_000 {
                if let Call::PutPacket { packet, .. } = packet(&mut random, &world) {
                    seen[packet.len()] = true;
                }
            }
            for length in [0, 8, 11, 12, 13, 248, 255, 256, 257, 264, 511, 512] {
                assert!(seen[length], "no packet of {length} bytes in revision {client_rev}");
            }
        }
    }
}
