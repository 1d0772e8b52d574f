//! Packets for a guest of revision 1: mostly of events with a form, and often at the limits.

use super::entries::taken_slot;
use super::packets::{any_event, is_offered, offered_event};
use crate::random::Random;
use crate::world::World;
use thayarqo_model::packet::MOST_EVENTS;
use thayarqo_model::records::{Event, EV_ABS, EV_KEY, EV_REL, EV_SYN, SYN_MT_REPORT};
use thayarqo_model::revision1::{ABS_X, ABS_Y, BTN_LEFT, BTN_MIDDLE, BTN_RIGHT, REL_HWHEEL, REL_X, REL_Y, SINGLE};

const BUTTONS: [u16; 3] = [BTN_LEFT, BTN_RIGHT, BTN_MIDDLE];

/// Codes next to those with a form.
const OTHERS: [(u16, u16); 5] = [
    (EV_REL, REL_HWHEEL),
    (EV_ABS, 2),
    (EV_KEY, BTN_LEFT - 1),
    (EV_KEY, BTN_MIDDLE + 1),
    (EV_SYN, SYN_MT_REPORT),
];

/// A slot and events of it. One packet in eight has an event or a value without a form, or a number of events that isn't allowed.
pub fn events(random: &mut Random, world: &World) -> (u32, Vec<Event>) {
    let slot = formed_slot(random, world);
    let mut events = formed(random, world, slot);
    if random.once_in(8) {
        spoil(random, world, slot, &mut events);
    }
    shuffle(random, &mut events);
    (slot, events)
}

/// Mostly a slot that offers an event with a form, where there is one.
fn formed_slot(random: &mut Random, world: &World) -> u32 {
    let slots: Vec<u32> = (0..8).map(|_| taken_slot(random, world)).collect();
    let found = slots.iter().find(|&&slot| !forms(world, slot).is_empty());
    *found.unwrap_or(&slots[0])
}

/// The axes and buttons that a slot offers.
fn forms(world: &World, slot: u32) -> Vec<(u16, u16)> {
    let buttons = BUTTONS.map(|code| (EV_KEY, code));
    let all = SINGLE.into_iter().chain(buttons);
    all.filter(|&(kind, code)| is_offered(world, slot, kind, code))
        .collect()
}

/// Some axes, each once, and some buttons; some other event where nothing with a form is offered.
fn formed(random: &mut Random, world: &World, slot: u32) -> Vec<Event> {
    let (axes, buttons): (Vec<_>, Vec<_>) = forms(world, slot).into_iter().partition(|form| SINGLE.contains(form));
    let mut chosen: Vec<_> = axes.into_iter().filter(|_| random.once_in(2)).collect();
    if !buttons.is_empty() {
        let presses = match random.below(8) {
            0..=4 => random.below(3),
            5 | 6 => random.below(8),
            _ => random.below(MOST_EVENTS as u32 + 1),
        };
        chosen.extend((0..presses).map(|_| random.pick(&buttons)));
    }
    chosen.truncate(MOST_EVENTS);
    if chosen.is_empty() {
        return vec![offered_event(random, world, slot)];
    }
    let event = |(kind, code)| Event::new(kind, code, value(random, world, kind, code));
    chosen.into_iter().map(event).collect()
}

/// A value that has a form.
fn value(random: &mut Random, world: &World, kind: u16, code: u16) -> u32 {
    let (least, most) = motion_limits(world);
    match (kind, code) {
        (EV_REL, REL_X | REL_Y) => match random.below(8) {
            0 => least as u32,
            1 => most as u32,
            2..=4 => random.below(80).wrapping_sub(40),
            _ => (least + random.below(most.abs_diff(least)) as i32) as u32,
        },
        (EV_ABS, _) => match random.below(4) {
            0 => random.pick(&[0, 1, 65534, 65535]),
            _ => random.below(65536),
        },
        (EV_KEY, _) => random.pick(&[0, 0, 1, 1, 2, u32::MAX]),
        _ => random.word(),
    }
}

/// The least and the greatest motion that is in range at the acceleration in force.
fn motion_limits(world: &World) -> (i32, i32) {
    let acceleration = i32::from(world.device.acceleration.max(1));
    (-327_689 / acceleration, 327_679 / acceleration)
}

/// Adds what has no form, isn't offered or is one too many.
fn spoil(random: &mut Random, world: &World, slot: u32, events: &mut Vec<Event>) {
    let (least, most) = motion_limits(world);
    let spoiler = match random.below(8) {
        0 => events[0],
        1 => Event::new(EV_REL, random.pick(&[REL_X, REL_Y]), (most + 1) as u32),
        2 => Event::new(EV_REL, random.pick(&[REL_X, REL_Y]), (least - 1) as u32),
        3 => Event::new(
            EV_ABS,
            random.pick(&[ABS_X, ABS_Y]),
            random.pick(&[65536, 1 << 31, u32::MAX]),
        ),
        4 => {
            let (kind, code) = random.pick(&OTHERS);
            Event::new(kind, code, 1)
        }
        5 => offered_event(random, world, slot),
        6 => any_event(random),
        _ => {
            let count = random.pick(&[0, 31, 32, 33, 33, 64]);
            return events.resize(count, Event::new(EV_KEY, BTN_LEFT, 1));
        }
    };
    if random.once_in(2) {
        events.retain(|event| (event.kind, event.code) != (spoiler.kind, spoiler.code));
    }
    events.push(spoiler);
}

fn shuffle(random: &mut Random, events: &mut [Event]) {
    for last in (1..events.len()).rev() {
        events.swap(last, random.below(last as u32 + 1) as usize);
    }
}

#[cfg(test)]
mod tests {
    use super::*;
    use crate::call::{Call, Core};
    use crate::generate::{packet, plug_in};
    use std::collections::BTreeSet;
    use thayarqo_model::answer::{DONE, MALFORMED, NOT_OFFERED};
    use thayarqo_model::geometry::Geometry;
    use thayarqo_model::packet::events_of;
    use thayarqo_model::records::READ_POINTER;
    use thayarqo_model::Model;

    /// On in revision 1, with some devices and an empty ring.
    fn switched_on(random: &mut Random, acceleration: u16) -> World {
        let geometry = Geometry {
            pages: 1,
            record_size: 8,
            entry_size: 68,
        };
        let mut world = World::new(geometry);
        plug_in(random, &mut world, geometry);
        (world.device.on, world.device.acceleration) = (true, acceleration);
        world
    }

    #[test]
    fn most_packets_are_accepted_and_some_are_not() {
        let mut random = Random::new(1);
        let mut counts = [0; 13];
        for round in 0..10_000 {
            let mut world = switched_on(&mut random, 1 + (round % 20) as u16);
            world.area.scribble(READ_POINTER, &[0; 8]);
            let call = packet(&mut random, &world);
            counts[usize::from(Model::default().call(&mut world, &call).number())] += 1;
        }
        assert!(counts[usize::from(DONE)] > 7000, "{counts:?}");
        assert!(counts[usize::from(NOT_OFFERED)] > 500, "{counts:?}");
        assert!(counts[usize::from(MALFORMED)] > 50, "{counts:?}");
    }

    #[test]
    fn motion_on_both_sides_of_each_limit_comes() {
        let mut random = Random::new(1);
        for (acceleration, limits) in [
            (1, [-327_690, -327_689, 327_679, 327_680]),
            (20, [-16385, -16384, 16383, 16384]),
        ] {
            let mut seen = BTreeSet::new();
            for _ in 0..2000 {
                let world = switched_on(&mut random, acceleration);
                if let Call::PutPacket { packet, .. } = packet(&mut random, &world) {
                    let motions = events_of(&packet)
                        .into_iter()
                        .filter(|event| (event.kind, event.code) == (EV_REL, REL_X));
                    seen.extend(motions.map(|event| event.value as i32));
                }
            }
            for motion in limits {
                assert!(seen.contains(&motion), "no {motion} at {acceleration}");
            }
        }
    }
}
