//! What is promised of whole lists from a switch-on: the driver has received a front part of the accepted packets, each whole, in
//! order, under its slot, and all of them right after it hears "nothing to read". A gap shows before an accepted packet exactly when
//! one was refused for room since the one accepted before it. In revision 1 the same holds of the groups that the accepted packets
//! come to, without slots and gaps. Some of the lists are the keyboard ring's: see `ring_order`.

use crate::allowed_geometry;
use crate::call::{Answer, Call, Core};
use crate::generate::{add, own_step, packet, plug_in, quiet_access, remove, serve, Phase};
use crate::logs::Logs;
use crate::random::Random;
use crate::ring_order;
use crate::world::World;
use std::fmt;
use thayarqo_model::access::CONTROL;
use thayarqo_model::answer::{BAD_INDEX, DONE, INVALID, NOTHING_TO_READ, NO_ROOM};
use thayarqo_model::control::INTERRUPTS;
use thayarqo_model::device::NO_SLOT;
use thayarqo_model::geometry::{Geometry, PAGE};
use thayarqo_model::packet::PACKET;

/// What the lists of a run came to.
#[derive(Debug, Default)]
pub struct Delivery {
    pub seed: u64,
    pub calls: u64,
    pub lists: u64,
    pub packets: u64,
    pub gaps: u64,
    /// Groups of revision 1.
    pub groups: u64,
    /// How often the driver heard "nothing to read".
    pub dry: u64,
    pub ring_events: u64,
    pub broken: Option<String>,
}

impl Delivery {
    /// Whether every promise was kept, and each had its turn.
    pub fn is_good(&self) -> bool {
        self.broken.is_none() && self.never_seen().is_none()
    }

    /// What never happened: a library that refuses everything breaks no promise of what is received.
    fn never_seen(&self) -> Option<&'static str> {
        let seen = [
            (self.packets, "no packet was received"),
            (self.gaps, "no gap was received"),
            (self.groups, "no group of revision 1 was received"),
            (self.dry, "there was always something to read"),
            (self.ring_events, "no ring event was taken"),
        ];
        seen.into_iter().find(|(count, _)| *count == 0).map(|(_, what)| what)
    }
}

impl fmt::Display for Delivery {
    fn fmt(&self, to: &mut fmt::Formatter) -> fmt::Result {
        let Delivery {
            seed,
            calls,
            lists,
            packets,
            gaps,
            groups,
            dry,
            ring_events,
            broken,
        } = self;
        writeln!(to, "seed {seed}: {calls} calls in {lists} lists")?;
        writeln!(
            to,
            "  received {packets} packets and {gaps} gaps, in revision 1 {groups} groups"
        )?;
        writeln!(to, "  nothing to read {dry} times; taken {ring_events} ring events")?;
        match (broken, self.never_seen()) {
            (Some(why), _) => write!(to, "a promise is broken: {why}"),
            (None, Some(what)) => write!(to, "the lists show too little: {what}"),
            (None, None) => write!(to, "every list is delivered"),
        }
    }
}

/// Makes at least that many calls on one side, unless a promise is broken before.
pub fn run(core: &dyn Core, seed: u64, calls: u64) -> Delivery {
    let mut random = Random::new(seed);
    let mut delivery = Delivery {
        seed,
        ..Delivery::default()
    };
    while delivery.calls < calls && delivery.broken.is_none() {
        let geometry = allowed_geometry(random.word());
        delivery.lists += 1;
        let result = match random.once_in(4) {
            true => run_ring_list(core, &mut random, geometry, &mut delivery),
            false => run_device_list(core, &mut random, geometry, &mut delivery),
        };
        if let Err(why) = result {
            delivery.broken = Some(format!("{why}, in list {} under {geometry:?}", delivery.lists));
        }
    }
    delivery
}

fn run_ring_list(
    core: &dyn Core,
    random: &mut Random,
    geometry: Geometry,
    delivery: &mut Delivery,
) -> Result<(), String> {
    let order = ring_order::run_list(core, random, geometry)?;
    delivery.calls += order.calls;
    delivery.ring_events += order.taken;
    Ok(())
}

fn run_device_list(
    core: &dyn Core,
    random: &mut Random,
    geometry: Geometry,
    delivery: &mut Delivery,
) -> Result<(), String> {
    let mut world = switched_off(random, geometry);
    switch_on(core, &mut world, random)?;
    let mut logs = Logs::starting(&world.device);
    let mut phase = Phase::Filling;
    let length = 100 + random.below(200) + geometry.ring_length() / 2;
    for place in 0.. {
        phase.turn(random, &world);
        // In the end there are steps alone, so that all that was sent is looked at.
        let call = match place < length {
            true => next(random, &world, phase),
            false => own_step(&world),
        };
        let answer = core.call(&mut world, &call);
        delivery.calls += 1;
        check_answer(&call, &answer, &world)?;
        logs.note(&call, &answer, world.packet.bytes())?;
        if place >= length && answer.number() == NOTHING_TO_READ {
            break;
        }
        if place == length + geometry.ring_length() {
            return Err("a whole ring was read, and there is more to read".to_string());
        }
    }
    delivery.packets += logs.packets;
    delivery.gaps += logs.gaps;
    delivery.groups += logs.groups;
    delivery.dry += logs.dry;
    Ok(())
}

/// A device in any state that the rules allow, off, with buffers of any bytes and a fresh driver.
fn switched_off(random: &mut Random, geometry: Geometry) -> World {
    let mut world = World::new(geometry);
    let area = random.bytes(geometry.area_length());
    world.area.load(&area);
    world.page.load(&random.bytes(PAGE));
    world.packet.load(&random.bytes(PACKET));
    plug_in(random, &mut world, geometry);
    let device = &mut world.device;
    serve(random, device);
    device.current_slot = match device.taken_slots().first() {
        Some(&slot) if random.once_in(2) => slot,
        _ => NO_SLOT,
    };
    device.write_index = random.below(geometry.ring_length());
    (device.lost, device.isr) = (random.once_in(2), random.once_in(2));
    world
}

fn switch_on(core: &dyn Core, world: &mut World, random: &mut Random) -> Result<(), String> {
    let call = Call::Write {
        offset: CONTROL,
        width: 4,
        value: random.word() & INTERRUPTS | 1,
    };
    match core.call(world, &call).number() {
        DONE if world.device.on => Ok(()),
        answer => Err(format!("the switch-on answers {answer}")),
    }
}

/// A call of such a list: none moves the read pointer but a step.
fn next(random: &mut Random, world: &World, phase: Phase) -> Call {
    let busy = random.below(100) < 80;
    match phase {
        Phase::Filling if busy => packet(random, world),
        Phase::Draining if busy => own_step(world),
        _ => match random.below(8) {
            0..=2 => own_step(world),
            3 => packet(random, world),
            4 => add(random, world),
            5 => remove(random, world),
            _ => quiet_access(random, world),
        },
    }
}

/// In such a list no index is impossible, and no state breaks a rule. In revision 1 an add or a remove needs no room.
fn check_answer(call: &Call, answer: &Answer, world: &World) -> Result<(), String> {
    let wrong_length = match call {
        Call::Add { entry, .. } => entry.len() != world.geometry.entry_size as usize,
        Call::PutPacket { packet, .. } => !packet.len().is_multiple_of(8),
        _ => false,
    };
    let needs_room = !world.device.is_revision1() || matches!(call, Call::PutPacket { .. });
    match answer.number() {
        BAD_INDEX => Err(format!("{call} answers 10")),
        NO_ROOM if !needs_room => Err(format!("{call} answers 7")),
        INVALID if !wrong_length => Err(format!("{call} answers 1")),
        _ => Ok(()),
    }
}

#[cfg(test)]
mod tests {
    use super::*;
    use thayarqo_model::answer::MALFORMED;
    use thayarqo_model::Model;

    /// Does what the model does, but refuses some of the calls.
    struct Refusing(fn(&World, &Call) -> bool);

    impl Core for Refusing {
        fn call(&self, world: &mut World, call: &Call) -> Answer {
            match self.0(world, call) {
                true => Answer::Number(MALFORMED),
                false => Model::default().call(world, call),
            }
        }
    }

    fn outcome(refuses: fn(&World, &Call) -> bool) -> Delivery {
        let delivery = run(&Refusing(refuses), 1, 100_000);
        assert!(delivery.calls > 0);
        delivery
    }

    #[test]
    fn refused_packets_break_no_promise_and_show_too_little() {
        let delivery = outcome(|_, call| matches!(call, Call::PutPacket { .. }));
        assert!(delivery.broken.is_none() && !delivery.is_good(), "{delivery}");
    }

    #[test]
    fn without_groups_of_revision_1_lists_show_too_little() {
        let delivery = outcome(|world, call| world.device.is_revision1() && matches!(call, Call::PutPacket { .. }));
        assert!(delivery.broken.is_none() && !delivery.is_good(), "{delivery}");
        assert!(
            delivery.packets > 0 && delivery.gaps > 0 && delivery.groups == 0,
            "{delivery}"
        );
    }

    #[test]
    fn refused_ring_events_break_a_promise() {
        let delivery = outcome(|_, call| matches!(call, Call::RingPut { .. }));
        assert!(delivery.broken.is_some() && !delivery.is_good(), "{delivery}");
    }

    #[test]
    fn a_run_that_is_too_short_shows_too_little() {
        let delivery = run(&Model::default(), 1, 1);
        assert!(delivery.broken.is_none() && !delivery.is_good(), "{delivery}");
    }

    #[test]
    fn the_model_delivers() {
        let delivery = outcome(|_, _| false);
        assert!(delivery.is_good(), "{delivery}");
    }
}
