//! The proved library's side.

use crate::call::{Answer, Call, Core, Told};
use crate::convert::{
    closed_of, device_of, driver_of, record_of, settings_of, taken_of, to_device, to_driver, to_geometry,
    to_ring_event, to_settings,
};
use crate::world::World;
use std::hint::black_box;
use thayarqo_model::access::Value;
use thayarqo_model::answer::DONE;
use thayarqo_model::guest::Copied;
use thayarqo_sys::{self as sys, safe};

pub struct Library;

impl Core for Library {
    fn call(&self, world: &mut World, call: &Call) -> Answer {
        match call {
            Call::FreshDevice => world.device = device_of(safe::fresh_device()),
            Call::FreshDriver => world.driver = driver_of(safe::fresh_driver()),
            Call::FreshSettings => world.settings = settings_of(safe::fresh_settings()),
            Call::Read { offset, width } => return read(world, *offset, *width),
            Call::Step | Call::CopyOut { .. } | Call::Lookup { .. } | Call::Revision1Step => {
                return guest_call(world, call);
            }
            Call::Node { name, value } => return node(world, name, value),
            Call::Close => return Answer::Closed(closed_of(safe::close(to_settings(&world.settings)))),
            Call::RingEncode { .. } | Call::RingDecode { .. } | Call::RingPut { .. } | Call::RingTake { .. } => {
                return ring_call(world, call);
            }
            _ => return change_device(world, call),
        }
        Answer::Number(DONE)
    }
}

/// A wrong library might write the state that it is lent to read, so it is compared all the same: the black box keeps the compiler
/// from taking it for unchanged.
fn read(world: &mut World, offset: u64, width: u32) -> Answer {
    let device = to_device(&world.device);
    let (area, page) = (world.area.bytes(), world.page.bytes());
    let geometry = to_geometry(world.geometry);
    let sys::Value { answer, value } = safe::read(black_box(&device), geometry, area, page, offset, width);
    world.device = device_of(device);
    Answer::Value(Value { answer, value })
}

/// The calls that change the device's state.
fn change_device(world: &mut World, call: &Call) -> Answer {
    let geometry = to_geometry(world.geometry);
    let mut device = to_device(&world.device);
    let (area, page) = (world.area.lend(), world.page.lend());
    let answer = match call {
        Call::Write { offset, width, value } => safe::write(&mut device, geometry, area, page, *offset, *width, *value),
        Call::PutPacket { slot, packet } => {
            world.input.load(packet);
            safe::put_packet(&mut device, geometry, area, page, *slot, world.input.bytes())
        }
        Call::Add { slot, entry } => {
            world.input.load(entry);
            safe::add(&mut device, geometry, area, page, *slot, world.input.bytes())
        }
        Call::Remove { slot } => safe::remove(&mut device, geometry, area, page, *slot),
        other => unreachable!("{other} is no call that changes the device"),
    };
    world.device = device_of(device);
    Answer::Number(answer)
}

fn guest_call(world: &mut World, call: &Call) -> Answer {
    let geometry = to_geometry(world.geometry);
    match call {
        Call::CopyOut { limit, out_length } => {
            world.out.set_length(*out_length);
            let sys::Copied { answer, count } = safe::copy_out(geometry, world.area.lend(), *limit, world.out.lend());
            Answer::Copied(Copied { answer, count })
        }
        Call::Lookup { slot, out_length } => {
            world.out.set_length(*out_length);
            Answer::Number(safe::lookup(geometry, world.page.bytes(), *slot, world.out.lend()))
        }
        Call::Revision1Step => Answer::Record(record_of(safe::revision1_step(geometry, world.area.lend()))),
        _ => step(world, geometry),
    }
}

fn step(world: &mut World, geometry: sys::Geometry) -> Answer {
    let mut driver = to_driver(&world.driver);
    let told = safe::step(&mut driver, geometry, world.area.lend(), world.packet.lend());
    world.driver = driver_of(driver);
    Answer::Told(Told {
        answer: told.answer,
        what: told.what,
        slot: told.slot,
        count: told.count,
    })
}

fn node(world: &mut World, name: &[u8], value: &[u8]) -> Answer {
    world.input.load(name);
    world.text.load(value);
    let mut settings = to_settings(&world.settings);
    let answer = safe::node(&mut settings, world.input.bytes(), world.text.bytes());
    world.settings = settings_of(settings);
    Answer::Number(answer)
}

fn ring_call(world: &mut World, call: &Call) -> Answer {
    let page = world.ring_page.lend();
    match call {
        Call::RingEncode { event, out_length } => {
            world.out.set_length(*out_length);
            Answer::Number(safe::ring_encode(world.out.lend(), to_ring_event(event)))
        }
        Call::RingDecode { bytes, limit } => {
            world.input.load(bytes);
            Answer::Taken(taken_of(safe::ring_decode(world.input.bytes(), *limit)))
        }
        Call::RingPut { event, limit } => {
            world.input.load(event);
            Answer::Number(safe::ring_put(page, &mut world.in_prod, *limit, world.input.bytes()))
        }
        Call::RingTake { limit } => Answer::Taken(taken_of(safe::ring_take(page, &mut world.in_cons, *limit))),
        other => unreachable!("{other} is no call of the ring"),
    }
}
