//! The guest's end of a shared event area, for the drivers of both revisions.
use super::{check_area, Shared, CLOSED, READ_PTR, RECORD_LENGTH, WRITE_PTR};
use crate::geometry::Geometry;
use crate::refusal::Answer;
use crate::words;
use std::sync::atomic::{fence, Ordering};

/// A shared event area, and the guest's own copy of it.
#[derive(Debug)]
pub(super) struct AreaReader<'a> {
    geometry: Geometry,
    area: Shared<'a>,
    own_area: Vec<u8>,
}

impl<'a> AreaReader<'a> {
    /// [`Invalid`] where the shared area has another length.
    ///
    /// [`Invalid`]: crate::Refusal::Invalid
    pub(super) fn new(geometry: Geometry, area: Shared<'a>) -> Answer<AreaReader<'a>> {
        check_area(geometry, area)?;
        Ok(AreaReader {
            geometry,
            area,
            own_area: vec![0; geometry.area_length()],
        })
    }

    /// Makes a call that reads at most `limit` records on the own area, and lets go of what it has read. The call is refused with
    /// [`BadIndex`] while the host restarts the ring.
    ///
    /// [`BadIndex`]: crate::Refusal::BadIndex
    pub(super) fn read<T>(&mut self, limit: u32, call: impl FnOnce(&mut [u8]) -> T) -> T {
        let index = self.fetch(limit);
        let answer = call(&mut self.own_area);
        self.publish(index);
        answer
    }

    /// Copies in both pointers, and at most `limit` of the unread records. Answers the read pointer.
    ///
    /// A restart closes the ring before it changes anything else, and sets READ_PTR to 0. So where READ_PTR wasn't 0, is as before
    /// and the ring isn't closed after all is copied, the pointers and records belong together. Where READ_PTR was 0, a restart that
    /// has begun and ended meanwhile looks the same, and so does one that comes before `publish`: the drivers' `restart` says what
    /// follows from that.
    fn fetch(&mut self, limit: u32) -> u32 {
        let read = self.area.load(READ_PTR, Ordering::Acquire);
        let write = self.area.load(WRITE_PTR, Ordering::Acquire);
        self.copy_in_records(read, write, limit);
        fence(Ordering::Acquire);
        let closed = self.area.load(WRITE_PTR, Ordering::Acquire) == CLOSED;
        let restarted = closed || self.area.load(READ_PTR, Ordering::Relaxed) != read;
        words::set(&mut self.own_area, READ_PTR, read);
        words::set(&mut self.own_area, WRITE_PTR, if restarted { CLOSED } else { write });
        read
    }

    fn copy_in_records(&mut self, read: u32, write: u32, limit: u32) {
        let ring_length = self.geometry.ring_length();
        if read >= ring_length || write >= ring_length {
            return;
        }
        let unread = (write + ring_length - read) % ring_length;
        for count in 0..unread.min(limit) {
            let place = self.geometry.record_place((read + count) % ring_length);
            self.area
                .copy_in(place, &mut self.own_area[place..place + RECORD_LENGTH]);
        }
    }

    /// Lets go of what was read. Where the host has restarted the ring meanwhile, its READ_PTR of 0 stands, unless it was 0 before.
    fn publish(&self, from: u32) {
        let to = words::get(&self.own_area, READ_PTR);
        if to != from {
            self.area.advance(READ_PTR, from, to);
        }
    }
}
