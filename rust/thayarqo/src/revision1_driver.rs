//! The guest's end of a device that serves revision 1.
use crate::geometry::Geometry;
use crate::refusal::{Answer, Refusal};
use crate::revision1::{Group, Revision1Record};
use thayarqo_sys::safe;

/// The driver of a guest of revision 1: it reads records one at a time from the event area that it is lent, and puts groups together
/// from them.
///
/// ```
/// use thayarqo::codes::{BTN_LEFT, REL_X, REL_Y};
/// use thayarqo::register::{ACCELERATION, CONTROL, CONTROL_ON};
/// use thayarqo::{Device, Entry, Event, Geometry, Packet, Refusal, Revision1Driver, Revision1Event};
///
/// let geometry = Geometry::new(1, 8, 68)?;
/// let mut device = Device::new(geometry);
/// device.add(4, &Entry::new("mouse").offer_rel().offer_key(BTN_LEFT)?)?;
/// device.write(CONTROL, 4, CONTROL_ON)?;
/// device.write(ACCELERATION, 4, 15)?;
/// let events = [Event::key(BTN_LEFT, true), Event::rel(REL_X, 10), Event::rel(REL_Y, -3)];
/// device.put_packet(&Packet::new(4, &events)?)?;
///
/// let mut driver = Revision1Driver::new(geometry);
/// let mut received = Vec::new();
/// let end = loop {
///     match driver.receive(device.area_mut()) {
///         Ok(Some(group)) => received.extend(group.events()),
///         Ok(None) => {}
///         Err(refusal) => break refusal,
///     }
/// };
/// let moved = Revision1Event::Relative { x: 15, y: -4 };
/// let pressed = Revision1Event::Button { code: BTN_LEFT, pressed: true };
/// assert_eq!((received, end), (vec![moved, pressed], Refusal::NothingToRead));
/// # Ok::<(), Refusal>(())
/// ```
#[derive(Clone, Debug, PartialEq, Eq)]
pub struct Revision1Driver {
    geometry: Geometry,
    /// The records since the last FENCE, as many as a group may have.
    begun: Group,
    /// There were more of them.
    overlong: bool,
}

impl Revision1Driver {
    /// A driver with nothing begun.
    pub fn new(geometry: Geometry) -> Revision1Driver {
        Revision1Driver {
            geometry,
            begun: Group::empty(),
            overlong: false,
        }
    }

    /// Reads one record and moves READ_PTR past it. Hands back the group that it ends, or none where the group isn't whole yet.
    /// [`Refusal::Malformed`] tells that the group has ended, and had more records than a device puts.
    pub fn receive(&mut self, area: &mut [u8]) -> Answer<Option<Group>> {
        let record = self.step(area)?;
        self.collect(record)
    }

    /// Reads one record, moves READ_PTR past it and hands it back as it is. It doesn't join the group that is begun: this is for a
    /// guest that collects groups itself.
    pub fn step(&self, area: &mut [u8]) -> Answer<Revision1Record> {
        let taken = safe::revision1_step(self.geometry.numbers(), area);
        Refusal::check(taken.answer).map(|()| Revision1Record {
            flags: taken.flags,
            revision: taken.revision,
            data: taken.data,
        })
    }

    /// The sizes.
    pub fn geometry(&self) -> Geometry {
        self.geometry
    }

    /// Joins a record to the group that is begun.
    fn collect(&mut self, record: Revision1Record) -> Answer<Option<Group>> {
        self.overlong |= !self.begun.join(record);
        if !record.is_fence() {
            return Ok(None);
        }
        let ended = std::mem::replace(self, Revision1Driver::new(self.geometry));
        match ended.overlong {
            true => Err(Refusal::Malformed),
            false => Ok(Some(ended.begun)),
        }
    }
}
