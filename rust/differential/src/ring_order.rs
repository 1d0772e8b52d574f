//! What is promised of the keyboard ring: from a zero page and indices 0, under one contact limit, what is taken is what was put, in
//! order.

use crate::call::{Answer, Call, Core};
use crate::generate::event_bytes;
use crate::random::Random;
use crate::world::World;
use std::collections::VecDeque;
use thayarqo_model::answer::{DONE, MALFORMED, NOTHING_TO_READ, NO_ROOM};
use thayarqo_model::geometry::{Geometry, PAGE};
use thayarqo_model::ring::RING_PLACES;
use thayarqo_model::ring_event::Taken;
use thayarqo_model::Model;
use thayarqo_sys::RING_UNKNOWN;

const CALLS: u32 = 600;
const RUN: u32 = 150;

/// What a list came to.
#[derive(Default)]
pub struct Order {
    pub calls: u64,
    pub taken: u64,
}

pub fn run_list(core: &dyn Core, random: &mut Random, geometry: Geometry) -> Result<Order, String> {
    let mut world = World::new(geometry);
    world.ring_page.load(&[0; PAGE]);
    let limit = 1 + random.below(32);
    let mut waiting = VecDeque::new();
    let mut order = Order::default();
    for place in 0..CALLS {
        // Runs of puts and of takes, so long that the ring is full now, and empty then.
        let puts = if (place / RUN).is_multiple_of(2) { 7 } else { 1 };
        let call = match random.below(8) < puts {
            true => Call::RingPut {
                event: event_bytes(random),
                limit,
            },
            false => Call::RingTake { limit },
        };
        let answer = core.call(&mut world, &call);
        order.calls += 1;
        order.taken += note(&mut waiting, call, &answer, limit)?;
    }
    Ok(order)
}

/// Holds an answer against the events that wait. How many were taken.
fn note(waiting: &mut VecDeque<Vec<u8>>, call: Call, answer: &Answer, limit: u32) -> Result<u64, String> {
    match call {
        Call::RingPut { event, .. } => {
            let expected = expected_of_put(&event, limit, waiting.len());
            if answer.number() != expected {
                return Err(format!("a put of {event:?} answers {answer:?}, and not {expected}"));
            }
            if expected == DONE {
                waiting.push_back(event);
            }
            Ok(0)
        }
        _ => {
            let put = waiting.pop_front();
            let expected = put.as_ref().map(|event| Model::default().decode(event, limit));
            match (expected, answer) {
                (Some(expected), Answer::Taken(taken)) if *taken == expected => Ok(1),
                (None, answer) if answer.number() == NOTHING_TO_READ => Ok(0),
                _ => Err(format!("put {put:?}, and a take answers {answer:?}")),
            }
        }
    }
}

/// Only a known and well-formed event is put, and only while there is room.
fn expected_of_put(event: &[u8], limit: u32, waiting: usize) -> u8 {
    let Taken { answer, event } = Model::default().decode(event, limit);
    match answer {
        DONE if event.kind == RING_UNKNOWN => MALFORMED,
        DONE if waiting == RING_PLACES as usize => NO_ROOM,
        answer => answer,
    }
}
