//! The model's side.

use crate::call::{Answer, Call, Core, Told};
use crate::world::World;
use thayarqo_model::answer::DONE;
use thayarqo_model::device::Device;
use thayarqo_model::driver::{self, Driver};
use thayarqo_model::settings::Settings;
use thayarqo_model::Model;

impl Core for Model {
    fn call(&self, world: &mut World, call: &Call) -> Answer {
        match call {
            Call::FreshDevice => world.device = Device::fresh(),
            Call::FreshDriver => world.driver = Driver::fresh(),
            Call::FreshSettings => world.settings = Settings::fresh(),
            Call::Step | Call::CopyOut { .. } | Call::Lookup { .. } | Call::Revision1Step => {
                return guest_call(*self, world, call);
            }
            Call::Node { name, value } => {
                world.input.load(name);
                world.text.load(value);
                let (name, value) = (world.input.bytes(), world.text.bytes());
                return Answer::Number(self.node(&mut world.settings, name, value));
            }
            Call::Close => return Answer::Closed(self.close(&world.settings)),
            Call::RingEncode { .. } | Call::RingDecode { .. } | Call::RingPut { .. } | Call::RingTake { .. } => {
                return ring_call(*self, world, call);
            }
            _ => return device_call(*self, world, call),
        }
        Answer::Number(DONE)
    }
}

fn device_call(model: Model, world: &mut World, call: &Call) -> Answer {
    let geometry = world.geometry;
    let device = &mut world.device;
    let (area, page) = (world.area.lend(), world.page.lend());
    let answer = match call {
        Call::Read { offset, width } => {
            return Answer::Value(model.read(device, geometry, area, page, *offset, *width));
        }
        Call::Write { offset, width, value } => model.write(device, geometry, area, page, *offset, *width, *value),
        Call::PutPacket { slot, packet } => {
            world.input.load(packet);
            model.put_packet(device, geometry, area, page, *slot, world.input.bytes())
        }
        Call::Add { slot, entry } => {
            world.input.load(entry);
            model.add(device, geometry, area, page, *slot, world.input.bytes())
        }
        Call::Remove { slot } => model.remove(device, geometry, area, page, *slot),
        other => unreachable!("{other} is no call of the device"),
    };
    Answer::Number(answer)
}

fn guest_call(model: Model, world: &mut World, call: &Call) -> Answer {
    let geometry = world.geometry;
    match call {
        Call::CopyOut { limit, out_length } => {
            world.out.set_length(*out_length);
            let (area, out) = (world.area.lend(), world.out.lend());
            Answer::Copied(model.copy_out(geometry, area, *limit, out))
        }
        Call::Lookup { slot, out_length } => {
            world.out.set_length(*out_length);
            let (page, out) = (world.page.bytes(), world.out.lend());
            Answer::Number(model.lookup_copy(geometry, page, *slot, out))
        }
        Call::Revision1Step => Answer::Record(model.revision1_step(geometry, world.area.lend())),
        _ => {
            let (area, packet) = (world.area.lend(), world.packet.lend());
            Answer::Told(numbers(model.step(&mut world.driver, geometry, area, packet)))
        }
    }
}

fn ring_call(model: Model, world: &mut World, call: &Call) -> Answer {
    let page = world.ring_page.lend();
    match call {
        Call::RingEncode { event, out_length } => {
            world.out.set_length(*out_length);
            Answer::Number(model.encode(event, world.out.lend()))
        }
        Call::RingDecode { bytes, limit } => {
            world.input.load(bytes);
            Answer::Taken(model.decode(world.input.bytes(), *limit))
        }
        Call::RingPut { event, limit } => {
            world.input.load(event);
            Answer::Number(model.ring_put(page, &mut world.in_prod, *limit, world.input.bytes()))
        }
        Call::RingTake { limit } => Answer::Taken(model.ring_take(page, &mut world.in_cons, *limit)),
        other => unreachable!("{other} is no call of the ring"),
    }
}

/// What is told in the header's numbers; a number that isn't meant is 0.
fn numbers(told: driver::Told) -> Told {
    let (what, slot, count) = match told {
        driver::Told::Refused(_) | driver::Told::Nothing => (0, 0, 0),
        driver::Told::Gap => (1, 0, 0),
        driver::Told::EmptyReport => (2, 0, 0),
        driver::Told::Packet { slot, count } => (3, slot, count),
        driver::Told::Set(slot) => (4, slot, 0),
        driver::Told::Conf(slot) => (5, slot, 0),
        driver::Told::Reset(slot) => (6, slot, 0),
        driver::Told::ResetAll => (7, 0, 0),
    };
    Told {
        answer: told.answer(),
        what,
        slot,
        count,
    }
}
