//! The host's end of a device.
use crate::entry::Entry;
use crate::event::Packet;
use crate::geometry::{Geometry, PAGE_LENGTH};
use crate::refusal::{Answer, Refusal};
use crate::words;
use thayarqo_sys::{self as sys, safe};

/// Which guests a device serves. They differ in the records that a packet comes to.
#[derive(Clone, Copy, Debug, PartialEq, Eq, Hash)]
pub enum Revision {
    /// Guests that never write CLIENT_REV, or write 1: a mouse alone, without slots. They read with a
    /// [`Revision1Driver`](crate::Revision1Driver).
    One,
    /// Guests that write 2: devices of many kinds, each in a slot. They read with a [`Driver`](crate::Driver).
    Two,
}

/// A device with pages of its own: its state, the event area and the entry page.
///
/// A guest in the same program reads the pages through the driver of its [`Revision`], which is lent [`Device::area_mut`]. For a guest
/// that runs at the same time see [`live`](crate::live).
#[derive(Clone, Debug, PartialEq, Eq)]
pub struct Device {
    geometry: Geometry,
    state: sys::Device,
    area: Vec<u8>,
    page: Vec<u8>,
}

impl Device {
    /// A device that is off, with no slot taken and pages of zeros.
    pub fn new(geometry: Geometry) -> Device {
        Device {
            geometry,
            state: safe::fresh_device(),
            area: vec![0; geometry.area_length()],
            page: vec![0; PAGE_LENGTH],
        }
    }

    /// Reads a register, or a word of the pages, for the guest. Every width but 4 is refused.
    pub fn read(&self, offset: u64, width: u32) -> Answer<u32> {
        let found = safe::read(
            &self.state,
            self.geometry.numbers(),
            &self.area,
            &self.page,
            offset,
            width,
        );
        Refusal::check(found.answer).map(|()| found.value)
    }

    /// Writes a register, or READ_PTR, for the guest. A switch-on clears the pointers, and in revision 2 puts the first records: that
    /// all slots are reset, and which ones are taken.
    pub fn write(&mut self, offset: u64, width: u32, value: u32) -> Answer<()> {
        let geometry = self.geometry.numbers();
        Refusal::check(safe::write(
            &mut self.state,
            geometry,
            &mut self.area,
            &self.page,
            offset,
            width,
            value,
        ))
    }

    /// Puts a packet whole, or not at all. [`Refusal::NoRoom`] and [`Refusal::BadIndex`] set the lost mark: the guest is told of a
    /// gap before the next packet that is put, unless the device is switched off first. A guest of revision 1 isn't told of gaps.
    ///
    /// For revision 1 the packet becomes a group: its motion, its position, its buttons, its wheel and a FENCE. [`Refusal::NotOffered`]
    /// also where revision 1 has no form for it: for other codes than `REL_X`, `REL_Y`, `REL_WHEEL`, `ABS_X`, `ABS_Y`, `BTN_LEFT`,
    /// `BTN_RIGHT` and `BTN_MIDDLE`, where one of these but a button comes twice, or where 16 bits don't hold a coordinate or a motion
    /// at the [acceleration](Device::acceleration) in force.
    pub fn put_packet(&mut self, packet: &Packet) -> Answer<()> {
        let mut buffer = [0; sys::PACKET_LENGTH];
        self.put_packet_bytes(packet.source().number(), packet.bytes(&mut buffer))
    }

    /// Puts a packet of events' bytes, which may be too few, too many or no whole events: these too get their answer.
    pub fn put_packet_bytes(&mut self, slot: u32, events: &[u8]) -> Answer<()> {
        let geometry = self.geometry.numbers();
        Refusal::check(safe::put_packet(
            &mut self.state,
            geometry,
            &mut self.area,
            &self.page,
            slot,
            events,
        ))
    }

    /// Takes a slot, and tells the guest while the device is on, but not one of revision 1.
    pub fn add(&mut self, slot: u32, entry: &Entry) -> Answer<()> {
        let mut bytes = vec![0; self.geometry.entry_size() as usize];
        bytes[..entry.bytes().len()].copy_from_slice(entry.bytes());
        self.add_bytes(slot, &bytes)
    }

    /// Takes a slot with an entry of just [`Geometry::entry_size`] bytes, all of which are stored.
    pub fn add_bytes(&mut self, slot: u32, entry: &[u8]) -> Answer<()> {
        let geometry = self.geometry.numbers();
        Refusal::check(safe::add(
            &mut self.state,
            geometry,
            &mut self.area,
            &mut self.page,
            slot,
            entry,
        ))
    }

    /// Frees a slot, zeroes its entry, and tells the guest while the device is on, but not one of revision 1.
    pub fn remove(&mut self, slot: u32) -> Answer<()> {
        let geometry = self.geometry.numbers();
        Refusal::check(safe::remove(
            &mut self.state,
            geometry,
            &mut self.area,
            &mut self.page,
            slot,
        ))
    }

    /// The sizes.
    pub fn geometry(&self) -> Geometry {
        self.geometry
    }

    /// The event area.
    pub fn area(&self) -> &[u8] {
        &self.area
    }

    /// The event area, as the guest may write it: the device takes READ_PTR from it, and trusts no other byte.
    pub fn area_mut(&mut self) -> &mut [u8] {
        &mut self.area
    }

    /// The entry page.
    pub fn page(&self) -> &[u8] {
        &self.page
    }

    /// The entry page, as a guest may write it where nothing hinders it: the device takes from it which events a slot offers. A
    /// [`LiveDevice`](crate::live::LiveDevice) has an entry page that no guest reaches.
    pub fn page_mut(&mut self) -> &mut [u8] {
        &mut self.page
    }

    /// Whether the guest has switched the device on.
    pub fn is_on(&self) -> bool {
        self.state.on
    }

    /// The revision that the device serves, or would serve if it were switched on. None after the guest has written a CLIENT_REV that
    /// is rejected: then the device stays off.
    pub fn revision(&self) -> Option<Revision> {
        match (self.state.client_rev_written, self.state.client_rev) {
            (false, _) | (true, 1) => Some(Revision::One),
            (true, 2) => Some(Revision::Two),
            (true, _) => None,
        }
    }

    /// What relative motion is multiplied by in revision 1, in tenths: 1 to 20. It is kept while another revision is served.
    pub fn acceleration(&self) -> u16 {
        self.state.acceleration
    }

    /// Whether the device has an interrupt pending.
    pub fn has_interrupt(&self) -> bool {
        self.state.isr
    }

    /// Whether a packet was lost since the last one that was put, or since the switch-on; in revision 1 since the switch-on.
    pub fn has_lost(&self) -> bool {
        self.state.lost
    }

    /// Whether a slot is taken.
    pub fn is_taken(&self, slot: u32) -> bool {
        slot < u64::BITS && self.state.taken >> slot & 1 == 1
    }

    /// The slot that the guest takes events to be of. Revision 1 has none.
    pub fn current_slot(&self) -> Option<u32> {
        Some(self.state.current_slot).filter(|slot| *slot != sys::NO_SLOT)
    }

    /// The index of the next record, which the device trusts instead of WRITE_PTR.
    pub fn write_index(&self) -> u32 {
        self.state.write_index
    }

    /// READ_PTR as the event area has it.
    pub fn read_pointer(&self) -> u32 {
        words::get(&self.area, 0)
    }

    /// Stores READ_PTR in the event area, as a guest does.
    pub fn set_read_pointer(&mut self, index: u32) {
        words::set(&mut self.area, 0, index);
    }
}
