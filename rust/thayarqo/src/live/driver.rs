//! The guest's end of a device with a running host.
use super::reader::AreaReader;
use super::{check_page, Shared, RECORD_LENGTH};
use crate::driver::{Driver, Told};
use crate::entry::{Entry, KNOWN_ENTRY_LENGTH};
use crate::geometry::{Geometry, PAGE_LENGTH};
use crate::refusal::Answer;

/// A driver whose event area and entry page are shared with a running host. Its calls are those of [`Driver`], and
/// [`LiveDriver::driver`] has the rest.
#[derive(Debug)]
pub struct LiveDriver<'a> {
    driver: Driver,
    area: AreaReader<'a>,
    page: Shared<'a>,
    own_page: Vec<u8>,
}

impl<'a> LiveDriver<'a> {
    /// A driver with nothing begun. [`Invalid`] where a shared page has another length.
    ///
    /// [`Invalid`]: crate::Refusal::Invalid
    pub fn new(geometry: Geometry, area: Shared<'a>, page: Shared<'a>) -> Answer<LiveDriver<'a>> {
        check_page(page)?;
        Ok(LiveDriver {
            driver: Driver::new(geometry),
            area: AreaReader::new(geometry, area)?,
            page,
            own_page: vec![0; PAGE_LENGTH],
        })
    }

    /// Forgets what was begun. A guest lets its driver rest while it switches the device off and on, and calls this before it reads
    /// on. Then the driver reads the new start whole, from [`Told::ResetAll`] on.
    ///
    /// For a driver that reads meanwhile there is no such promise. It notices most restarts: its call is refused with [`BadIndex`].
    /// But where READ_PTR is 0, as it is after a restart and whenever the ring has come round, nothing tells a restart from none,
    /// as no shared word counts them. A call that began there
    ///
    /// - may hand over old records, or mixtures of old and new;
    /// - moves READ_PTR past as many new records, which are never read: the one of [`Told::ResetAll`] is the first;
    /// - may move READ_PTR past WRITE_PTR, if it is a [`LiveDriver::copy_out`]. What is left in the ring then looks unread: the driver
    ///   reads old records, and the host has little room until it has.
    ///
    /// A step is safe from this while the ring doesn't come round between two restarts, as record 0 is the same after each. The
    /// host's state is right throughout, and another restart, with the driver at rest, mends the guest's.
    ///
    /// [`BadIndex`]: crate::Refusal::BadIndex
    pub fn restart(&mut self) {
        self.driver = Driver::new(self.driver.geometry());
    }

    /// See [`Driver::step`]. [`BadIndex`] also while the host restarts the ring: nothing is consumed then.
    ///
    /// [`BadIndex`]: crate::Refusal::BadIndex
    pub fn step(&mut self) -> Answer<Told> {
        self.area.read(1, |area| self.driver.step(area))
    }

    /// See [`Driver::copy_out`], and [`LiveDriver::step`] of a restart.
    pub fn copy_out(&mut self, limit: u32, out: &mut [u8]) -> Answer<usize> {
        let room = u32::try_from(out.len() / RECORD_LENGTH).unwrap_or(u32::MAX);
        self.area
            .read(limit.min(room), |area| self.driver.copy_out(area, limit, out))
    }

    /// See [`Driver::lookup`]. An entry that the host replaces meanwhile may come in parts: the records that tell of it are read
    /// afterwards.
    pub fn lookup(&mut self, slot: u32) -> Answer<Entry> {
        let geometry = self.driver.geometry();
        if slot < geometry.slots() {
            let start = geometry.entry_place(slot);
            let end = start + KNOWN_ENTRY_LENGTH;
            self.page.copy_in(start, &mut self.own_page[start..end]);
        }
        self.driver.lookup(&self.own_page, slot)
    }

    /// The driver as this end sees it: its sizes, and whose events it takes the next ones to be.
    pub fn driver(&self) -> &Driver {
        &self.driver
    }
}
