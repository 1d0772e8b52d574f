//! Events and packets of them.
use crate::codes::{code_name, type_name, EV_ABS, EV_KEY, EV_REL, EV_SYN, SYN_MT_REPORT};
use crate::refusal::{Answer, Refusal};
use std::fmt;
use thayarqo_sys as sys;

/// Bytes of an event, as they stand in a record.
pub const EVENT_LENGTH: usize = 8;

/// An event: a type and a code, which [`codes`](crate::codes) names, and a value.
///
/// ```
/// use thayarqo::codes::REL_X;
/// use thayarqo::Event;
///
/// let moved = Event::rel(REL_X, -3);
/// assert_eq!(moved.to_string(), "REL_X -3");
/// assert_eq!(moved.bytes(), [2, 0, 0, 0, 0xFD, 0xFF, 0xFF, 0xFF]);
/// assert_eq!(Event::of_bytes(moved.bytes()), moved);
/// ```
#[derive(Clone, Copy, Debug, Default, PartialEq, Eq, Hash)]
pub struct Event {
    /// The type, `EV_` and so on.
    pub kind: u16,
    /// The code among those of its type.
    pub code: u16,
    /// The value, which is signed for movements and positions: see [`Event::signed`].
    pub value: u32,
}

impl Event {
    /// A movement.
    pub const fn rel(code: u16, value: i32) -> Event {
        Event::of(EV_REL, code, value as u32)
    }

    /// A position.
    pub const fn abs(code: u16, value: i32) -> Event {
        Event::of(EV_ABS, code, value as u32)
    }

    /// A button that went down, or up.
    pub const fn key(code: u16, pressed: bool) -> Event {
        Event::of(EV_KEY, code, pressed as u32)
    }

    /// The end of a contact, from devices that don't number their contacts.
    pub const fn mt_report() -> Event {
        Event::of(EV_SYN, SYN_MT_REPORT, 0)
    }

    const fn of(kind: u16, code: u16, value: u32) -> Event {
        Event { kind, code, value }
    }

    /// The value as a signed number.
    pub const fn signed(self) -> i32 {
        self.value as i32
    }

    /// The bytes as they stand in a record.
    pub const fn bytes(self) -> [u8; EVENT_LENGTH] {
        let number = self.kind as u64 | (self.code as u64) << 16 | (self.value as u64) << 32;
        number.to_le_bytes()
    }

    /// The event of a record's bytes, such as [`Driver::copy_out`](crate::Driver::copy_out) hands over.
    pub const fn of_bytes(bytes: [u8; EVENT_LENGTH]) -> Event {
        let number = u64::from_le_bytes(bytes);
        Event::of(number as u16, (number >> 16) as u16, (number >> 32) as u32)
    }
}

impl fmt::Display for Event {
    fn fmt(&self, out: &mut fmt::Formatter) -> fmt::Result {
        match (code_name(self.kind, self.code), type_name(self.kind)) {
            (Some(code), _) => write!(out, "{code} {}", self.signed()),
            (None, Some(kind)) => write!(out, "{kind} {} {}", self.code, self.signed()),
            (None, None) => write!(out, "{} {} {}", self.kind, self.code, self.signed()),
        }
    }
}

/// Whose events a guest is told of.
#[derive(Clone, Copy, Debug, PartialEq, Eq, Hash)]
pub enum Source {
    /// A slot of the entry page.
    Slot(u32),
    /// No slot has been named, or it has become free.
    None,
    /// The host said that it doesn't know.
    Unknown,
}

impl Source {
    pub(crate) fn of_number(slot: u32) -> Source {
        match slot {
            sys::NO_SLOT => Source::None,
            sys::UNKNOWN_SLOT => Source::Unknown,
            slot => Source::Slot(slot),
        }
    }

    pub(crate) fn number(self) -> u32 {
        match self {
            Source::Slot(slot) => slot,
            Source::None => sys::NO_SLOT,
            Source::Unknown => sys::UNKNOWN_SLOT,
        }
    }
}

/// The most events that a packet holds.
pub const PACKET_EVENTS: usize = sys::PACKET_EVENTS;

/// Events of one source that happened at the same time: 1 to [`PACKET_EVENTS`] of them.
#[derive(Clone, Copy)]
pub struct Packet {
    source: Source,
    count: usize,
    events: [Event; PACKET_EVENTS],
}

impl Packet {
    /// A packet of a slot. [`Refusal::Malformed`] where there are no events, or too many.
    pub fn new(slot: u32, events: &[Event]) -> Answer<Packet> {
        if !(1..=PACKET_EVENTS).contains(&events.len()) {
            return Err(Refusal::Malformed);
        }
        let mut held = [Event::default(); PACKET_EVENTS];
        held[..events.len()].copy_from_slice(events);
        Ok(Packet {
            source: Source::of_number(slot),
            count: events.len(),
            events: held,
        })
    }

    /// Whose events they are.
    pub fn source(&self) -> Source {
        self.source
    }

    /// The events.
    pub fn events(&self) -> &[Event] {
        &self.events[..self.count]
    }

    /// Writes the bytes of the events to the start of a buffer, and hands these back.
    pub(crate) fn bytes<'a>(&self, buffer: &'a mut [u8; sys::PACKET_LENGTH]) -> &'a [u8] {
        let (places, _) = buffer.as_chunks_mut();
        for (place, event) in places.iter_mut().zip(self.events()) {
            *place = event.bytes();
        }
        &buffer[..EVENT_LENGTH * self.count]
    }

    /// The first `count` events of a buffer, of which there is one at least.
    pub(crate) fn of_bytes(slot: u32, count: usize, buffer: &[u8; sys::PACKET_LENGTH]) -> Packet {
        let mut events = [Event::default(); PACKET_EVENTS];
        let (places, _) = buffer.as_chunks();
        for (event, bytes) in events.iter_mut().zip(&places[..count]) {
            *event = Event::of_bytes(*bytes);
        }
        Packet {
            source: Source::of_number(slot),
            count,
            events,
        }
    }
}

impl PartialEq for Packet {
    fn eq(&self, other: &Packet) -> bool {
        self.source == other.source && self.events() == other.events()
    }
}

impl Eq for Packet {}

impl fmt::Debug for Packet {
    fn fmt(&self, out: &mut fmt::Formatter) -> fmt::Result {
        let mut shown = out.debug_struct("Packet");
        shown.field("source", &self.source);
        shown.field("events", &self.events()).finish()
    }
}
