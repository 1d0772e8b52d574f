//! The guest's end of a device that serves revision 1, with a running host.
use super::reader::AreaReader;
use super::Shared;
use crate::geometry::Geometry;
use crate::refusal::Answer;
use crate::revision1::{Group, Revision1Record};
use crate::revision1_driver::Revision1Driver;

/// A driver of revision 1 whose event area is shared with a running host. Its calls are those of [`Revision1Driver`], and
/// [`LiveRevision1Driver::driver`] has the rest. Revision 1 knows no entries, so there is no entry page.
#[derive(Debug)]
pub struct LiveRevision1Driver<'a> {
    driver: Revision1Driver,
    area: AreaReader<'a>,
}

impl<'a> LiveRevision1Driver<'a> {
    /// A driver with nothing begun. [`Invalid`] where the shared area has another length.
    ///
    /// [`Invalid`]: crate::Refusal::Invalid
    pub fn new(geometry: Geometry, area: Shared<'a>) -> Answer<LiveRevision1Driver<'a>> {
        Ok(LiveRevision1Driver {
            driver: Revision1Driver::new(geometry),
            area: AreaReader::new(geometry, area)?,
        })
    }

    /// Forgets what was begun. A guest lets its driver rest while it switches the device off and on, and calls this before it reads
    /// on. Then the driver reads the groups of the new start, from the first one on.
    ///
    /// No record tells of a start in revision 1, so a driver that reads meanwhile can't see that its group was cut off. It notices
    /// most restarts: its call is refused with [`BadIndex`]. But where READ_PTR is 0, nothing tells a restart from none. A call that
    /// began there may hand over an old record, and moves READ_PTR past one that it hasn't read, or past WRITE_PTR: then what is left
    /// in the ring looks unread, and the host has no room until the driver has read it. The host's state is right throughout, and
    /// another restart, with the driver at rest, mends the guest's.
    ///
    /// [`BadIndex`]: crate::Refusal::BadIndex
    pub fn restart(&mut self) {
        self.driver = Revision1Driver::new(self.driver.geometry());
    }

    /// See [`Revision1Driver::receive`]. [`BadIndex`] also while the host restarts the ring: nothing is consumed then.
    ///
    /// [`BadIndex`]: crate::Refusal::BadIndex
    pub fn receive(&mut self) -> Answer<Option<Group>> {
        self.area.read(1, |area| self.driver.receive(area))
    }

    /// See [`Revision1Driver::step`], and [`LiveRevision1Driver::receive`] of a restart.
    pub fn step(&mut self) -> Answer<Revision1Record> {
        self.area.read(1, |area| self.driver.step(area))
    }

    /// The driver as this end sees it, with its sizes.
    pub fn driver(&self) -> &Revision1Driver {
        &self.driver
    }
}
