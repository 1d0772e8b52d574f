//! The host's end of a device with a running guest.
use super::{check_area, check_page, Shared, CLOSED, READ_PTR, RECORD_LENGTH, WRITE_PTR};
use crate::device::Device;
use crate::entry::Entry;
use crate::event::Packet;
use crate::geometry::Geometry;
use crate::refusal::Answer;
use crate::register;
use std::sync::atomic::{fence, Ordering};

/// A device whose event area and entry page are shared with a running guest. Its calls are those of [`Device`], and
/// [`LiveDevice::device`] has the rest.
#[derive(Debug)]
pub struct LiveDevice<'a> {
    device: Device,
    area: Shared<'a>,
    page: Shared<'a>,
}

impl<'a> LiveDevice<'a> {
    /// A device that is off, with no slot taken. Zeroes the shared pages; [`Invalid`] where they have another length.
    ///
    /// [`Invalid`]: crate::Refusal::Invalid
    pub fn new(geometry: Geometry, area: Shared<'a>, page: Shared<'a>) -> Answer<LiveDevice<'a>> {
        check_area(geometry, area)?;
        check_page(page)?;
        let device = Device::new(geometry);
        area.copy_out(0, device.area());
        page.copy_out(0, device.page());
        Ok(LiveDevice { device, area, page })
    }

    /// See [`Device::read`]. A word of the pages is the host's own, whatever the guest has written there; READ_PTR is the guest's.
    pub fn read(&mut self, offset: u64, width: u32) -> Answer<u32> {
        self.fetch();
        self.device.read(offset, width)
    }

    /// See [`Device::write`].
    pub fn write(&mut self, offset: u64, width: u32, value: u32) -> Answer<()> {
        self.fetch();
        let was_on = self.device.is_on();
        self.device.write(offset, width, value)?;
        if offset == register::READ_PTR {
            self.area.store(READ_PTR, value, Ordering::Release);
        }
        if self.device.is_on() && !was_on {
            self.publish_restart();
        }
        Ok(())
    }

    /// See [`Device::put_packet`].
    pub fn put_packet(&mut self, packet: &Packet) -> Answer<()> {
        self.put(|device| device.put_packet(packet))
    }

    /// See [`Device::put_packet_bytes`].
    pub fn put_packet_bytes(&mut self, slot: u32, events: &[u8]) -> Answer<()> {
        self.put(|device| device.put_packet_bytes(slot, events))
    }

    /// See [`Device::add`].
    pub fn add(&mut self, slot: u32, entry: &Entry) -> Answer<()> {
        self.plug(slot, |device| device.add(slot, entry))
    }

    /// See [`Device::add_bytes`].
    pub fn add_bytes(&mut self, slot: u32, entry: &[u8]) -> Answer<()> {
        self.plug(slot, |device| device.add_bytes(slot, entry))
    }

    /// See [`Device::remove`].
    pub fn remove(&mut self, slot: u32) -> Answer<()> {
        self.plug(slot, |device| device.remove(slot))
    }

    /// The device as the host sees it, with the read pointer of the last call.
    pub fn device(&self) -> &Device {
        &self.device
    }

    /// Acquire: what the guest has read may be overwritten.
    fn fetch(&mut self) {
        let index = self.area.load(READ_PTR, Ordering::Acquire);
        self.device.set_read_pointer(index);
    }

    fn put(&mut self, call: impl FnOnce(&mut Device) -> Answer<()>) -> Answer<()> {
        self.fetch();
        let first = self.device.write_index();
        call(&mut self.device)?;
        self.publish_records(first);
        Ok(())
    }

    /// The entry comes before the record that tells of it.
    fn plug(&mut self, slot: u32, call: impl FnOnce(&mut Device) -> Answer<()>) -> Answer<()> {
        self.fetch();
        let first = self.device.write_index();
        call(&mut self.device)?;
        let geometry = self.device.geometry();
        let start = geometry.entry_place(slot);
        let end = start + geometry.entry_size() as usize;
        self.page.copy_out(start, &self.device.page()[start..end]);
        self.publish_records(first);
        Ok(())
    }

    /// Copies out the records from the first one to the write index, and then announces them. In revision 1 there may be none.
    fn publish_records(&self, first: u32) {
        if first != self.device.write_index() {
            self.copy_out_records(first);
            self.announce();
        }
    }

    fn copy_out_records(&self, first: u32) {
        let geometry = self.device.geometry();
        let mut index = first;
        while index != self.device.write_index() {
            let place = geometry.record_place(index);
            self.area
                .copy_out(place, &self.device.area()[place..place + RECORD_LENGTH]);
            index = (index + 1) % geometry.ring_length();
        }
    }

    /// Release: all that was copied out is seen with the new WRITE_PTR.
    fn announce(&self) {
        self.area.store(WRITE_PTR, self.device.write_index(), Ordering::Release);
    }

    /// A switch-on changes both pointers, and there is no way to store them at once: with only one of them new, old records would
    /// look unread. So WRITE_PTR first becomes impossible, which keeps a driver that looks meanwhile from reading anything; the fence
    /// has that seen before what follows. Then READ_PTR and the first records, in any order, and last the new WRITE_PTR, which tells
    /// that all this is in place. Revision 1 has no first records: the new WRITE_PTR is 0, and has to be stored all the same.
    fn publish_restart(&self) {
        self.area.store(WRITE_PTR, CLOSED, Ordering::Relaxed);
        fence(Ordering::Release);
        self.area.store(READ_PTR, 0, Ordering::Relaxed);
        self.copy_out_records(0);
        self.announce();
    }
}
