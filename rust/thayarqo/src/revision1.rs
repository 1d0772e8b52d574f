//! Records of revision 1, and groups of them.
use crate::codes::{BTN_LEFT, BTN_MIDDLE, BTN_RIGHT};
use crate::event::{EVENT_LENGTH, PACKET_EVENTS};
use crate::flags::*;
use std::fmt;

/// The first eight bytes of a record of revision 1, as they stand in the ring.
///
/// ```
/// use thayarqo::flags::RELATIVE;
/// use thayarqo::{Revision1Event, Revision1Record};
///
/// let moved = Revision1Record { flags: RELATIVE, revision: 1, data: 0xFFFD_000A };
/// assert_eq!(moved.event(), Revision1Event::Relative { x: 10, y: -3 });
/// assert_eq!(moved.to_string(), "RELATIVE 10 -3");
/// ```
#[derive(Clone, Copy, Debug, Default, PartialEq, Eq, Hash)]
pub struct Revision1Record {
    /// What the record tells: see [`flags`](crate::flags).
    pub flags: u16,
    /// The revision of the record, which is 1.
    pub revision: u16,
    /// The data that goes with the flags.
    pub data: u32,
}

/// What a record of revision 1 tells.
#[derive(Clone, Copy, Debug, PartialEq, Eq, Hash)]
pub enum Revision1Event {
    /// The pointer has moved.
    Relative {
        /// To the right.
        x: i16,
        /// Downwards.
        y: i16,
    },
    /// The pointer is at a place.
    Absolute {
        /// From the left.
        x: u16,
        /// From the top.
        y: u16,
    },
    /// A button went down, or up.
    Button {
        /// `BTN_LEFT`, `BTN_RIGHT` or `BTN_MIDDLE` of [`codes`](crate::codes).
        code: u16,
        /// Whether it went down.
        pressed: bool,
    },
    /// The vertical wheel has moved.
    VWheel(i32),
    /// The horizontal wheel has moved.
    HWheel(i32),
    /// The records before this one, back to the last of its kind, happened at the same time.
    Fence,
    /// No flag that is known, or several. A device of this library puts no such record.
    Other(Revision1Record),
}

impl Revision1Record {
    /// What the record tells. With the flag of a FENCE it is one, whatever else it holds.
    pub fn event(self) -> Revision1Event {
        if self.is_fence() {
            return Revision1Event::Fence;
        }
        let (low, high) = (self.data as u16, (self.data >> 16) as u16);
        let button = |code, pressed| Revision1Event::Button { code, pressed };
        match self.flags {
            RELATIVE => Revision1Event::Relative {
                x: low as i16,
                y: high as i16,
            },
            ABSOLUTE => Revision1Event::Absolute { x: low, y: high },
            LEFT_BUTTON_DOWN => button(BTN_LEFT, true),
            LEFT_BUTTON_UP => button(BTN_LEFT, false),
            RIGHT_BUTTON_DOWN => button(BTN_RIGHT, true),
            RIGHT_BUTTON_UP => button(BTN_RIGHT, false),
            MIDDLE_BUTTON_DOWN => button(BTN_MIDDLE, true),
            MIDDLE_BUTTON_UP => button(BTN_MIDDLE, false),
            VWHEEL => Revision1Event::VWheel(self.data as i32),
            HWHEEL => Revision1Event::HWheel(self.data as i32),
            _ => Revision1Event::Other(self),
        }
    }

    /// Whether the record ends a group.
    pub fn is_fence(self) -> bool {
        self.flags & FENCE != 0
    }

    /// The record of bytes such as [`Driver::copy_out`](crate::Driver::copy_out) hands over.
    pub const fn of_bytes(bytes: [u8; EVENT_LENGTH]) -> Revision1Record {
        let number = u64::from_le_bytes(bytes);
        Revision1Record {
            flags: number as u16,
            revision: (number >> 16) as u16,
            data: (number >> 32) as u32,
        }
    }
}

impl fmt::Display for Revision1Record {
    fn fmt(&self, out: &mut fmt::Formatter) -> fmt::Result {
        let Some(name) = flag_name(self.flags) else {
            return write!(out, "flags {:#x} data {:#x}", self.flags, self.data);
        };
        match self.event() {
            Revision1Event::Relative { x, y } => write!(out, "{name} {x} {y}"),
            Revision1Event::Absolute { x, y } => write!(out, "{name} {x} {y}"),
            Revision1Event::VWheel(wheel) | Revision1Event::HWheel(wheel) => write!(out, "{name} {wheel}"),
            _ => out.write_str(name),
        }
    }
}

/// The most records of a group that a device puts: one for each event of a packet, and the FENCE.
pub const GROUP_RECORDS: usize = PACKET_EVENTS + 1;

/// Records of revision 1 that happened at the same time, up to their FENCE: at most [`GROUP_RECORDS`].
#[derive(Clone, Copy)]
pub struct Group {
    count: usize,
    records: [Revision1Record; GROUP_RECORDS],
}

impl Group {
    /// The records, with the FENCE as the last one.
    pub fn records(&self) -> &[Revision1Record] {
        &self.records[..self.count]
    }

    /// What the records before the FENCE tell.
    pub fn events(&self) -> impl Iterator<Item = Revision1Event> + '_ {
        let before_fence = self.records().iter().filter(|record| !record.is_fence());
        before_fence.map(|record| record.event())
    }

    /// Before its first record.
    pub(crate) fn empty() -> Group {
        Group {
            count: 0,
            records: [Revision1Record::default(); GROUP_RECORDS],
        }
    }

    /// Adds a record. False where there is no place for it.
    pub(crate) fn join(&mut self, record: Revision1Record) -> bool {
        let Some(place) = self.records.get_mut(self.count) else {
            return false;
        };
        *place = record;
        self.count += 1;
        true
    }
}

impl PartialEq for Group {
    fn eq(&self, other: &Group) -> bool {
        self.records() == other.records()
    }
}

impl Eq for Group {}

impl fmt::Debug for Group {
    fn fmt(&self, out: &mut fmt::Formatter) -> fmt::Result {
        out.debug_tuple("Group").field(&self.records()).finish()
    }
}

impl fmt::Display for Group {
    fn fmt(&self, out: &mut fmt::Formatter) -> fmt::Result {
        for (index, record) in self.records().iter().enumerate() {
            let comma = if index > 0 { ", " } else { "" };
            write!(out, "{comma}{record}")?;
        }
        Ok(())
    }
}
