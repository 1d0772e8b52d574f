//! The guest's end of a device.
use crate::entry::{Entry, KNOWN_ENTRY_LENGTH};
use crate::event::{Packet, Source};
use crate::geometry::Geometry;
use crate::refusal::{Answer, Refusal};
use thayarqo_sys::{self as sys, safe};

/// What a step has read.
#[derive(Clone, Copy, Debug, PartialEq, Eq)]
#[expect(
    clippy::large_enum_variant,
    reason = "a box for every packet would cost more than its copy"
)]
pub enum Told {
    /// Part of a packet that isn't whole yet, an event that is ignored, or SYN_DROPPED, after which events are ignored.
    Nothing,
    /// Packets have been lost here.
    Gap,
    /// A report of no event.
    EmptyReport,
    /// A whole packet.
    Packet(Packet),
    /// Events that follow are of this source.
    Set(Source),
    /// A slot has been taken: see [`Driver::lookup`].
    Conf(u32),
    /// A slot has become free.
    Reset(u32),
    /// Every slot has become free.
    ResetAll,
}

/// A guest's driver: it reads records one at a time from the event area that it is lent, and puts packets together from them.
#[derive(Clone, Debug, PartialEq, Eq)]
pub struct Driver {
    geometry: Geometry,
    state: sys::Driver,
    /// The events of the packet that is being collected, as bytes.
    packet: [u8; sys::PACKET_LENGTH],
}

impl Driver {
    /// A driver with nothing begun.
    pub fn new(geometry: Geometry) -> Driver {
        Driver {
            geometry,
            state: safe::fresh_driver(),
            packet: [0; sys::PACKET_LENGTH],
        }
    }

    /// Reads one record and moves READ_PTR past it. [`Refusal::Malformed`] tells of a record, or of a packet, that has no meaning
    /// and is consumed all the same.
    pub fn step(&mut self, area: &mut [u8]) -> Answer<Told> {
        let told = safe::step(&mut self.state, self.geometry.numbers(), area, &mut self.packet);
        Refusal::check(told.answer)?;
        Ok(match told.what {
            sys::TOLD_GAP => Told::Gap,
            sys::TOLD_EMPTY_REPORT => Told::EmptyReport,
            sys::TOLD_PACKET => Told::Packet(Packet::of_bytes(told.slot, told.count as usize, &self.packet)),
            sys::TOLD_SET => Told::Set(Source::of_number(told.slot)),
            sys::TOLD_CONF => Told::Conf(told.slot),
            sys::TOLD_RESET => Told::Reset(told.slot),
            sys::TOLD_RESET_ALL => Told::ResetAll,
            _ => Told::Nothing,
        })
    }

    /// Copies the first 8 bytes of the oldest records, at most `limit` and as many as `out` has room for, and moves READ_PTR past
    /// them. Answers how many.
    pub fn copy_out(&self, area: &mut [u8], limit: u32, out: &mut [u8]) -> Answer<usize> {
        let copied = safe::copy_out(self.geometry.numbers(), area, limit, out);
        Refusal::check(copied.answer).map(|()| copied.count as usize)
    }

    /// The entry of a slot.
    pub fn lookup(&self, page: &[u8], slot: u32) -> Answer<Entry> {
        let mut bytes = [0; KNOWN_ENTRY_LENGTH];
        Refusal::check(safe::lookup(self.geometry.numbers(), page, slot, &mut bytes))?;
        Ok(Entry::of_bytes(bytes))
    }

    /// The sizes.
    pub fn geometry(&self) -> Geometry {
        self.geometry
    }

    /// Whose events the driver takes the next ones to be.
    pub fn source(&self) -> Source {
        Source::of_number(self.state.slot)
    }
}
