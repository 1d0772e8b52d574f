//! What the guest sets: the revision, the acceleration, and CONTROL, with switch-on.

use crate::answer::{DONE, NO_ROOM};
use crate::bytes::put_word;
use crate::device::{Device, Position, Revision, ACCELERATIONS, NO_SLOT};
use crate::geometry::Geometry;
use crate::records::{put_records, Event, ALL_SLOTS, DEV_CONF, DEV_RESET, EV_DEV, READ_POINTER, WRITE_POINTER};
use crate::{Fault, Model};

/// Bits of CONTROL.
pub const ENABLE: u32 = 1;
pub const INTERRUPTS: u32 = 2;

impl Model {
    /// What REV reads: 1 in revision 1, else 2.
    pub(crate) fn revision_number(self, device: &Device) -> u32 {
        match device.revision() {
            Some(Revision::One) if device.client_rev == 1 && self.has(Fault::RevOf2AtClientRev1) => 2,
            Some(Revision::One) => 1,
            _ => 2,
        }
    }

    /// Ignored while on. 1 and 2 are served, any other number is rejected.
    pub(crate) fn write_client_rev(self, device: &mut Device, value: u32) {
        let least = 1 + u32::from(self.has(Fault::ClientRev1Rejected));
        if !device.on || self.has(Fault::ClientRevWritableWhileOn) {
            device.client_rev_written = true;
            device.client_rev = if (least..=2).contains(&value) { value as u16 } else { 0 };
        }
    }

    /// ACCELERATION is there in revision 1 alone, on or off.
    pub(crate) fn has_acceleration(self, device: &Device) -> bool {
        device.is_revision1() || self.has(Fault::AccelerationInRevision2)
    }

    /// A number that ACCELERATION can't be is ignored.
    pub(crate) fn write_acceleration(self, device: &mut Device, value: u32) {
        let number = match self.has(Fault::AccelerationModulo65536) {
            true => value as u16,
            false => u16::try_from(value).unwrap_or(0),
        };
        let is_right = ACCELERATIONS.contains(&number) || number == 21 && self.has(Fault::AccelerationOf21);
        if is_right && self.has_acceleration(device) {
            device.acceleration = number;
        }
    }

    /// Bit 0 stays 0 where CLIENT_REV was rejected.
    pub(crate) fn write_control(self, device: &mut Device, geometry: Geometry, area: &mut [u8], value: u32) -> u8 {
        let is_served = device.revision().is_some() || self.has(Fault::RejectedSwitchedOn);
        let on = value & ENABLE != 0 && is_served;
        if on && !device.on {
            let answer = self.switch_on(device, geometry, area);
            if answer != DONE {
                return answer;
            }
        }
        device.on = on;
        device.interrupts = value & INTERRUPTS != 0;
        DONE
    }

    /// The ring and what was told through it begin anew, with the first records.
    fn switch_on(self, device: &mut Device, geometry: Geometry, area: &mut [u8]) -> u8 {
        let records = self.first_records(device);
        if records.len() > geometry.ring_length() as usize - 1 {
            return NO_ROOM;
        }
        device.on = true;
        device.write_index = 0;
        device.current_slot = NO_SLOT;
        device.lost &= self.has(Fault::LostMarkAfterSwitchOn);
        if !self.has(Fault::PositionAfterSwitchOn) {
            device.position = Position::default();
        }
        put_word(area, READ_POINTER, 0);
        put_word(area, WRITE_POINTER, 0);
        put_records(device, geometry, area, &records);
        DONE
    }

    /// DEV_RESET of all, DEV_CONF of each taken slot. In revision 1 there are none.
    fn first_records(self, device: &Device) -> Vec<Event> {
        if device.is_revision1() && !self.has(Fault::SwitchOnToldInRevision1) {
            return Vec::new();
        }
        let mut records = vec![Event::new(EV_DEV, DEV_RESET, ALL_SLOTS)];
        for slot in device.taken_slots() {
            records.push(Event::new(EV_DEV, DEV_CONF, slot));
        }
        records
    }
}

#[cfg(test)]
mod tests {
    use super::*;
    use crate::access::{Value, ACCELERATION, CLIENT_REV, CONTROL, READ_PTR, REV};
    use crate::geometry::PAGE;

    const GEOMETRY: Geometry = Geometry {
        pages: 1,
        record_size: 8,
        entry_size: 68,
    };

    struct Machine {
        device: Device,
        area: [u8; PAGE],
    }

    impl Machine {
        fn new() -> Machine {
            Machine {
                device: Device::fresh(),
                area: [0xEE; PAGE],
            }
        }

        fn read(&self, offset: u64) -> u32 {
            let Value { answer, value } =
                Model::default().read(&self.device, GEOMETRY, &self.area, &[0; PAGE], offset, 4);
            assert_eq!(answer, DONE);
            value
        }

        fn write(&mut self, offset: u64, value: u32) {
            let (device, area) = (&mut self.device, &mut self.area);
            let answer = Model::default().write(device, GEOMETRY, area, &[0; PAGE], offset, 4, value);
            assert_eq!(answer, DONE);
        }
    }

    #[test]
    fn a_rejected_number_keeps_the_device_off() {
        for number in [0, 3, 7, 257, 258, u32::MAX] {
            let mut machine = Machine::new();
            machine.write(CLIENT_REV, number);
            machine.write(CONTROL, 3);
            assert_eq!((machine.read(CLIENT_REV), machine.read(REV)), (0, 2));
            assert_eq!(machine.read(CONTROL), 2);
        }
    }

    #[test]
    fn each_revision_goes_on_and_keeps_its_number() {
        for (written, client_rev, rev) in [(None, 0, 1), (Some(1), 1, 1), (Some(2), 2, 2)] {
            let mut machine = Machine::new();
            if let Some(number) = written {
                machine.write(CLIENT_REV, number);
            }
            machine.write(CONTROL, 0xFFFF_FFFD);
            machine.write(CLIENT_REV, 0);
            assert_eq!((machine.read(CLIENT_REV), machine.read(REV)), (client_rev, rev));
            assert_eq!(machine.read(CONTROL), 1);
        }
    }

    #[test]
    fn acceleration_is_revision_1s_and_is_kept() {
        let mut machine = Machine::new();
        assert_eq!(machine.read(ACCELERATION), 10);
        for (written, kept) in [(20, 20), (21, 20), (1, 1), (0, 1), (266, 1), (15, 15), (u32::MAX, 15)] {
            machine.write(ACCELERATION, written);
            assert_eq!(machine.read(ACCELERATION), kept);
        }
        machine.write(CONTROL, 1);
        machine.write(ACCELERATION, 5);
        machine.write(CONTROL, 0);
        for hiding in [2, 7] {
            machine.write(CLIENT_REV, hiding);
            machine.write(ACCELERATION, 6);
            assert_eq!(machine.read(ACCELERATION), 0);
        }
        machine.write(CLIENT_REV, 1);
        assert_eq!(machine.read(ACCELERATION), 5);
    }

    #[test]
    fn switch_on_with_slot_4_taken_puts_two_records() {
        let mut machine = Machine::new();
        machine.device.taken = 1 << 4;
        machine.device.lost = true;
        machine.write(CLIENT_REV, 2);
        machine.write(CONTROL, 1);
        assert_eq!(machine.device.write_index, 2);
        assert!(!machine.device.lost);
        assert_eq!((machine.read(READ_PTR), machine.read(READ_PTR + 4)), (0, 2));
        assert_eq!(Event::read(&machine.area, 8), Event::new(6, 3, 0xFFFF));
        assert_eq!(Event::read(&machine.area, 16), Event::new(6, 2, 4));
        assert_eq!(machine.area[24], 0xEE);
    }

    #[test]
    fn switch_on_of_revision_1_puts_no_record() {
        let mut machine = Machine::new();
        let device = &mut machine.device;
        (device.taken, device.current_slot, device.lost, device.write_index) = (1 << 4, 4, true, 9);
        device.position = Position { x: 3, y: 4 };
        machine.write(CONTROL, 1);
        let started = Device {
            on: true,
            taken: 1 << 4,
            ..Device::fresh()
        };
        assert_eq!(machine.device, started);
        assert_eq!((machine.read(READ_PTR), machine.read(READ_PTR + 4)), (0, 0));
        assert!(machine.area[8..].iter().all(|&byte| byte == 0xEE));
    }
}
