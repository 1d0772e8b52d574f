//! What a packet is expected to come to at the other end, from arguments and answers alone.

use std::collections::VecDeque;
use thayarqo_model::device::{Device, Position, Revision, ACCELERATIONS};
use thayarqo_model::packet::events_of;
use thayarqo_model::records::Event;
use thayarqo_model::revision1::Group;
use thayarqo_model::Model;

/// An entry of the sent or the received log.
#[derive(Debug, PartialEq, Eq)]
pub enum Entry {
    Gap,
    Packet {
        slot: u32,
        events: Vec<Event>,
    },
    /// The records up to a FENCE.
    Group(Vec<Event>),
}

/// What the accepted packets are told by, so far.
pub enum Sender {
    One { acceleration: u16, position: Position },
    Two { refused_for_room: bool },
}

impl Sender {
    /// At switch-on. Of the device its revision and its ACCELERATION are looked at.
    pub fn starting(device: &Device) -> Sender {
        match device.revision() {
            Some(Revision::One) => Sender::One {
                acceleration: device.acceleration,
                position: Position::default(),
            },
            _ => Sender::Two {
                refused_for_room: false,
            },
        }
    }

    /// An accepted packet. It is wrong where revision 1 has no form for it.
    pub fn send(&mut self, slot: u32, packet: &[u8], sent: &mut VecDeque<Entry>) -> Result<(), String> {
        let events = events_of(packet);
        match self {
            Sender::One { acceleration, position } => {
                let group = Model::default().group(*acceleration, *position, &events);
                let Ok(Group {
                    records,
                    position: after,
                }) = group
                else {
                    return Err(format!("{events:?} is accepted, and has no form in revision 1"));
                };
                *position = after;
                sent.push_back(Entry::Group(records));
            }
            Sender::Two { refused_for_room } => {
                if std::mem::take(refused_for_room) {
                    sent.push_back(Entry::Gap);
                }
                sent.push_back(Entry::Packet { slot, events });
            }
        }
        Ok(())
    }

    /// A packet was refused for room. Revision 1 isn't told.
    pub fn lose(&mut self) {
        if let Sender::Two { refused_for_room } = self {
            *refused_for_room = true;
        }
    }

    /// A write of ACCELERATION that was answered 0.
    pub fn accelerate(&mut self, value: u32) {
        let written = u16::try_from(value)
            .ok()
            .filter(|number| ACCELERATIONS.contains(number));
        if let (Sender::One { acceleration, .. }, Some(number)) = (self, written) {
            *acceleration = number;
        }
    }
}
