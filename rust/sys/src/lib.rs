//! The C interface of the proved library, just as `include/thayarqo.h` and its parts have it. They say of every call what it answers and
//! what it changes.
//!
//! A lent buffer is a pointer and a length in bytes. Buffers of one call don't overlap. The calls of [`safe`] take slices, for which
//! both hold; the crate `thayarqo` builds on these.
#![no_std]

mod answers;
mod calls;
mod layout;
pub mod safe;

pub use answers::*;
pub use calls::*;

/// A slot in [`Device`] and [`Driver`]: none.
pub const NO_SLOT: u32 = 0xFFFF_FFFE;
/// A slot in [`Driver`]: the guest was told that the source isn't known.
pub const UNKNOWN_SLOT: u32 = 0xFFFF_FFFF;
/// A slot in a DEV_RESET: all of them.
pub const ALL_SLOTS: u32 = 0xFFFF;

/// Bytes of the page of entries.
pub const ENTRY_PAGE_LENGTH: usize = 4096;
/// Bytes of an entry that have a meaning.
pub const KNOWN_ENTRY_LENGTH: usize = 68;
/// Bytes of the keyboard ring's page.
pub const RING_PAGE_LENGTH: usize = 4096;
/// Bytes of an event of the keyboard ring.
pub const RING_EVENT_LENGTH: usize = 40;
/// The most events that a packet holds.
pub const PACKET_EVENTS: usize = 32;
/// Bytes of the buffer for a driver's packet.
pub const PACKET_LENGTH: usize = 8 * PACKET_EVENTS;

/// The sizes that host and guest agree on.
#[repr(C)]
#[derive(Clone, Copy, Debug, PartialEq, Eq)]
pub struct Geometry {
    pub pages: u32,
    pub record_size: u32,
    pub entry_size: u32,
}

/// The device's state.
#[repr(C)]
#[derive(Clone, Copy, Debug, PartialEq, Eq)]
pub struct Device {
    pub on: bool,
    pub interrupts: bool,
    pub isr: bool,
    pub client_rev_written: bool,
    pub client_rev: u16,
    pub acceleration: u16,
    pub write_index: u32,
    pub current_slot: u32,
    pub position: Position,
    pub lost: bool,
    pub taken: u64,
}

/// A pair of absolute coordinates.
#[repr(C)]
#[derive(Clone, Copy, Debug, Default, PartialEq, Eq)]
pub struct Position {
    pub x: u16,
    pub y: u16,
}

/// The first eight bytes of a record, and of a packet's events each, on a little-endian machine.
#[repr(C)]
#[derive(Clone, Copy, Debug, Default, PartialEq, Eq)]
pub struct Event {
    pub kind: u16,
    pub code: u16,
    pub value: u32,
}

/// What a read answers.
#[repr(C)]
#[derive(Clone, Copy, Debug, PartialEq, Eq)]
pub struct Value {
    pub answer: u8,
    pub value: u32,
}

/// The state of a guest's driver. The `held` events of the packet that it collects stand in a buffer of their own.
#[repr(C)]
#[derive(Clone, Copy, Debug, PartialEq, Eq)]
pub struct Driver {
    pub slot: u32,
    pub held: u32,
    pub overlong: bool,
    pub spoiled: bool,
    pub ignoring: bool,
}

/// What a step answers: `what` is one of the `TOLD_` numbers.
#[repr(C)]
#[derive(Clone, Copy, Debug, PartialEq, Eq)]
pub struct Told {
    pub answer: u8,
    pub what: u8,
    pub slot: u32,
    pub count: u32,
}

pub const TOLD_NOTHING: u8 = 0;
pub const TOLD_GAP: u8 = 1;
pub const TOLD_EMPTY_REPORT: u8 = 2;
pub const TOLD_PACKET: u8 = 3;
pub const TOLD_SET: u8 = 4;
pub const TOLD_CONF: u8 = 5;
pub const TOLD_RESET: u8 = 6;
pub const TOLD_RESET_ALL: u8 = 7;

/// What a copy-out answers.
#[repr(C)]
#[derive(Clone, Copy, Debug, PartialEq, Eq)]
pub struct Copied {
    pub answer: u8,
    pub count: u32,
}

/// What a step of revision 1 answers: a record's flags, which are `FLAG_` numbers, its revision and its data.
#[repr(C)]
#[derive(Clone, Copy, Debug, PartialEq, Eq)]
pub struct Taken {
    pub answer: u8,
    pub flags: u16,
    pub revision: u16,
    pub data: u32,
}

pub const FLAG_ABSOLUTE: u16 = 0x001;
pub const FLAG_RELATIVE: u16 = 0x002;
/// The end of a group of records.
pub const FLAG_FENCE: u16 = 0x004;
pub const FLAG_LEFT_BUTTON_DOWN: u16 = 0x008;
pub const FLAG_LEFT_BUTTON_UP: u16 = 0x010;
pub const FLAG_RIGHT_BUTTON_DOWN: u16 = 0x020;
pub const FLAG_RIGHT_BUTTON_UP: u16 = 0x040;
pub const FLAG_MIDDLE_BUTTON_DOWN: u16 = 0x080;
pub const FLAG_MIDDLE_BUTTON_UP: u16 = 0x100;
pub const FLAG_HWHEEL: u16 = 0x200;
pub const FLAG_VWHEEL: u16 = 0x400;

/// An event of the keyboard ring: `kind` is one of the `RING_` numbers, and `subtype` of a touch one of the `TOUCH_` numbers.
#[repr(C)]
#[derive(Clone, Copy, Debug, Default, PartialEq, Eq)]
pub struct RingEvent {
    pub kind: u8,
    pub subtype: u8,
    pub contact: u8,
    pub pressed: bool,
    pub x: i32,
    pub y: i32,
    pub z: i32,
    pub keycode: u32,
    pub major: u32,
    pub minor: u32,
    pub orientation: i16,
}

pub const RING_UNKNOWN: u8 = 0;
pub const RING_MOTION: u8 = 1;
pub const RING_KEY: u8 = 3;
pub const RING_POSITION: u8 = 4;
pub const RING_TOUCH: u8 = 5;

pub const TOUCH_DOWN: u8 = 0;
pub const TOUCH_UP: u8 = 1;
pub const TOUCH_MOTION: u8 = 2;
pub const TOUCH_SYN: u8 = 3;
pub const TOUCH_SHAPE: u8 = 4;
pub const TOUCH_ORIENT: u8 = 5;

/// What a decode or a take answers.
#[repr(C)]
#[derive(Clone, Copy, Debug, PartialEq, Eq)]
pub struct RingFound {
    pub answer: u8,
    pub event: RingEvent,
}

/// A numeric node.
#[repr(C)]
#[derive(Clone, Copy, Debug, PartialEq, Eq)]
pub struct Parameter {
    pub given: bool,
    pub value: u32,
}

/// The nodes that have come so far.
#[repr(C)]
#[derive(Clone, Copy, Debug, PartialEq, Eq)]
pub struct Settings {
    pub feature_disable_keyboard: bool,
    pub feature_disable_pointer: bool,
    pub feature_abs_pointer: bool,
    pub feature_multi_touch: bool,
    pub feature_raw_pointer: bool,
    pub request_abs_pointer: bool,
    pub request_multi_touch: bool,
    pub request_raw_pointer: bool,
    pub width: Parameter,
    pub height: Parameter,
    pub contacts: Parameter,
    pub touch_width: Parameter,
    pub touch_height: Parameter,
}

/// The modes that settings come to.
#[repr(C)]
#[derive(Clone, Copy, Debug, PartialEq, Eq)]
pub struct Closed {
    pub answer: u8,
    pub absolute: bool,
    pub multi_touch: bool,
    pub raw: bool,
    pub disable_keyboard: bool,
    pub disable_pointer: bool,
    pub width: u32,
    pub height: u32,
    pub contacts: u32,
    pub touch_width: u32,
    pub touch_height: u32,
}
