//! Calls and their answers, as both sides take and give them.

use crate::world::World;
use std::fmt;
use thayarqo_model::access::Value;
use thayarqo_model::closing::Closed;
use thayarqo_model::guest::Copied;
use thayarqo_model::packet::events_of;
use thayarqo_model::revision1_reader::TakenRecord;
use thayarqo_model::ring_event::{RingNumbers, Taken};

#[derive(Clone, Debug)]
pub enum Call {
    FreshDevice,
    FreshDriver,
    FreshSettings,
    Read { offset: u64, width: u32 },
    Write { offset: u64, width: u32, value: u32 },
    PutPacket { slot: u32, packet: Vec<u8> },
    Add { slot: u32, entry: Vec<u8> },
    Remove { slot: u32 },
    Step,
    CopyOut { limit: u32, out_length: usize },
    Lookup { slot: u32, out_length: usize },
    Revision1Step,
    Node { name: Vec<u8>, value: Vec<u8> },
    Close,
    RingEncode { event: RingNumbers, out_length: usize },
    RingDecode { bytes: Vec<u8>, limit: u32 },
    RingPut { event: Vec<u8>, limit: u32 },
    RingTake { limit: u32 },
}

/// What a call gives back.
#[derive(Clone, Copy, Debug, PartialEq, Eq)]
pub enum Answer {
    Number(u8),
    Value(Value),
    Told(Told),
    Copied(Copied),
    Record(TakenRecord),
    Closed(Closed),
    Taken(Taken),
}

/// What a step tells, in the header's numbers.
#[derive(Clone, Copy, Debug, Default, PartialEq, Eq)]
pub struct Told {
    pub answer: u8,
    pub what: u8,
    pub slot: u32,
    pub count: u32,
}

/// One of the two sides: it makes a call on a world.
pub trait Core {
    fn call(&self, world: &mut World, call: &Call) -> Answer;
}

impl Call {
    pub fn name(&self) -> &'static str {
        match self {
            Call::FreshDevice => "fresh device",
            Call::FreshDriver => "fresh driver",
            Call::FreshSettings => "fresh settings",
            Call::Read { .. } => "read",
            Call::Write { .. } => "write",
            Call::PutPacket { .. } => "put packet",
            Call::Add { .. } => "add",
            Call::Remove { .. } => "remove",
            Call::Step => "step",
            Call::CopyOut { .. } => "copy out",
            Call::Lookup { .. } => "lookup",
            Call::Revision1Step => "revision 1 step",
            Call::Node { .. } => "node",
            Call::Close => "close",
            Call::RingEncode { .. } => "ring encode",
            Call::RingDecode { .. } => "ring decode",
            Call::RingPut { .. } => "ring put",
            Call::RingTake { .. } => "ring take",
        }
    }
}

impl Answer {
    /// The number of the papers.
    pub fn number(&self) -> u8 {
        match self {
            Answer::Number(number) => *number,
            Answer::Value(value) => value.answer,
            Answer::Told(told) => told.answer,
            Answer::Copied(copied) => copied.answer,
            Answer::Record(record) => record.answer,
            Answer::Closed(closed) => closed.answer,
            Answer::Taken(taken) => taken.answer,
        }
    }
}

/// A packet by its length and its events; everything else in full.
impl fmt::Display for Call {
    fn fmt(&self, to: &mut fmt::Formatter) -> fmt::Result {
        match self {
            Call::PutPacket { slot, packet } => {
                write!(to, "PutPacket {{ slot: {slot}, length: {}, events:", packet.len())?;
                for event in events_of(packet) {
                    write!(to, " ({}, {:#x}, {})", event.kind, event.code, event.value)?;
                }
                write!(to, " }}")
            }
            Call::Node { name, value } => {
                let (name, value) = (name.escape_ascii(), value.escape_ascii());
                write!(to, "Node {{ name: \"{name}\", value: \"{value}\" }}")
            }
            other => write!(to, "{other:?}"),
        }
    }
}
