//! The device's state and its rules.

use crate::geometry::{Geometry, PAGE};
use crate::{Fault, Model};
use std::ops::RangeInclusive;

/// No slot is current.
pub const NO_SLOT: u32 = 0xFFFF_FFFE;

/// What ACCELERATION may be, and what it is at first.
pub const ACCELERATIONS: RangeInclusive<u16> = 1..=20;
const FIRST_ACCELERATION: u16 = 10;

/// Which guests a device serves.
#[derive(Clone, Copy, Debug, PartialEq, Eq)]
pub enum Revision {
    One,
    Two,
}

/// A pair of absolute coordinates.
#[derive(Clone, Copy, Debug, Default, PartialEq, Eq)]
pub struct Position {
    pub x: u16,
    pub y: u16,
}

#[derive(Clone, Copy, Debug, PartialEq, Eq)]
pub struct Device {
    pub on: bool,
    pub interrupts: bool,
    pub isr: bool,
    pub client_rev_written: bool,
    pub client_rev: u16,
    /// What revision 1 multiplies relative motion by, in tenths. Kept in revision 2 as well.
    pub acceleration: u16,
    /// The private index that the device trusts.
    pub write_index: u32,
    pub current_slot: u32,
    /// What the last ABSOLUTE record of revision 1 carried.
    pub position: Position,
    /// A packet was refused with 10 or 7 since the last one accepted, or since the switch-on; in revision 1 since the switch-on.
    pub lost: bool,
    /// A bit a slot, slot 0 the lowest.
    pub taken: u64,
}

impl Device {
    pub fn fresh() -> Device {
        Device {
            on: false,
            interrupts: false,
            isr: false,
            client_rev_written: false,
            client_rev: 0,
            acceleration: FIRST_ACCELERATION,
            write_index: 0,
            current_slot: NO_SLOT,
            position: Position::default(),
            lost: false,
            taken: 0,
        }
    }

    /// The revision that CLIENT_REV asks for, on or off. None where a number was written that is rejected.
    pub fn revision(&self) -> Option<Revision> {
        match (self.client_rev_written, self.client_rev) {
            (false, _) | (true, 1) => Some(Revision::One),
            (true, 2) => Some(Revision::Two),
            (true, _) => None,
        }
    }

    pub fn is_revision1(&self) -> bool {
        self.revision() == Some(Revision::One)
    }

    pub fn has_taken(&self, slot: u32) -> bool {
        slot < 64 && self.taken >> slot & 1 == 1
    }

    /// The taken slots, rising.
    pub fn taken_slots(&self) -> Vec<u32> {
        (0..64).filter(|&slot| self.has_taken(slot)).collect()
    }

    /// The state rules.
    pub fn is_sound(&self, geometry: Geometry) -> bool {
        let client_rev_known = self.client_rev <= 2;
        let switched_on_rightly = !self.on || self.revision().is_some();
        let written_or_zero = self.client_rev_written || self.client_rev == 0;
        let slots_in_range = self.taken_slots().iter().all(|&slot| slot < geometry.slots());
        let current_is_there = self.current_slot == NO_SLOT || self.has_taken(self.current_slot);
        self.write_index < geometry.ring_length()
            && client_rev_known
            && switched_on_rightly
            && written_or_zero
            && ACCELERATIONS.contains(&self.acceleration)
            && slots_in_range
            && current_is_there
    }
}

impl Model {
    /// What every call of the device refuses with 1.
    pub(crate) fn is_invalid(self, device: &Device, geometry: Geometry, area: &[u8], page: &[u8]) -> bool {
        let least = u16::from(self.has(Fault::AccelerationOfZero));
        let device = Device {
            acceleration: device.acceleration.max(least),
            ..*device
        };
        !geometry.is_allowed()
            || area.len() != geometry.area_length()
            || page.len() != PAGE
            || !device.is_sound(geometry)
    }
}

#[cfg(test)]
mod tests {
    use super::*;

    const GEOMETRY: Geometry = Geometry {
        pages: 1,
        record_size: 8,
        entry_size: 256,
    };

    fn changed(change: impl FnOnce(&mut Device)) -> bool {
        let mut device = Device {
            client_rev_written: true,
            client_rev: 2,
            ..Device::fresh()
        };
        change(&mut device);
        device.is_sound(GEOMETRY)
    }

    #[test]
    fn both_sides_of_each_state_rule() {
        assert!(Device::fresh().is_sound(GEOMETRY));
        assert!(changed(|device| device.on = true));
        assert!(changed(|device| device.write_index = 510));
        assert!(!changed(|device| device.write_index = 511));
        assert!(changed(|device| device.client_rev = 1));
        assert!(!changed(|device| device.client_rev = 3));
        assert!(!changed(|device| device.client_rev_written = false));
        assert!(changed(|device| device.taken = 1 << 15));
        assert!(!changed(|device| device.taken = 1 << 16));
        assert!(!changed(|device| device.current_slot = 3));
        assert!(!changed(|device| device.current_slot = 0xFFFF_FFFF));
        assert!(changed(|device| (device.current_slot, device.taken) = (3, 8)));
        for (acceleration, is_sound) in [(0, false), (1, true), (20, true), (21, false), (266, false)] {
            assert_eq!(changed(|device| device.acceleration = acceleration), is_sound);
        }
    }

    #[test]
    fn a_device_is_on_in_a_revision_that_it_serves() {
        let is_sound = |client_rev_written, client_rev| {
            changed(|device| {
                device.on = true;
                (device.client_rev_written, device.client_rev) = (client_rev_written, client_rev);
            })
        };
        assert!(is_sound(true, 2) && is_sound(true, 1) && is_sound(false, 0));
        assert!(!is_sound(true, 0) && !is_sound(false, 1) && !is_sound(false, 2));
    }

    #[test]
    fn client_rev_chooses_the_revision() {
        let revision = |client_rev_written, client_rev| {
            let device = Device {
                client_rev_written,
                client_rev,
                ..Device::fresh()
            };
            device.revision()
        };
        assert_eq!(revision(false, 0), Some(Revision::One));
        assert_eq!(revision(true, 1), Some(Revision::One));
        assert_eq!(revision(true, 2), Some(Revision::Two));
        assert_eq!(revision(true, 0), None);
    }
}
