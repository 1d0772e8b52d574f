//! What a line of a script asks for.
use thayarqo::{Entry, Event, Revision};

/// One of the two parts of the guest's memory.
#[derive(Clone, Copy, Debug, PartialEq, Eq)]
pub enum Memory {
    Area,
    Page,
}

#[derive(Clone, Debug, PartialEq, Eq)]
pub enum Command {
    Geometry {
        pages: u32,
        record_size: u32,
        entry_size: u32,
    },
    Add {
        slot: u32,
        entry: Box<Entry>,
    },
    Remove {
        slot: u32,
    },
    On {
        revision: Revision,
        interrupts: bool,
    },
    Off,
    Packet {
        slot: u32,
        events: Vec<Event>,
    },
    Step,
    Drain,
    Copy {
        limit: u32,
    },
    Records,
    Lookup {
        slot: u32,
    },
    Read {
        offset: u64,
        width: u32,
    },
    Write {
        offset: u64,
        value: u32,
        width: u32,
    },
    Poke {
        memory: Memory,
        offset: usize,
        bytes: Vec<u8>,
    },
    Repeat {
        count: u32,
        command: Box<Command>,
    },
}
