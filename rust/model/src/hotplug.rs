//! A device added to a slot, or removed.

use crate::answer::{BAD_SLOT, DONE, INVALID, MALFORMED};
use crate::device::{Device, NO_SLOT};
use crate::entries::{is_present, KNOWN_ENTRY};
use crate::geometry::Geometry;
use crate::records::{put_records, Event, DEV_CONF, DEV_RESET, EV_DEV};
use crate::{Fault, Model};

impl Model {
    /// Refusals in order: 1, 6, 9, and 10, 7 while on in revision 2.
    pub fn add(
        self,
        device: &mut Device,
        geometry: Geometry,
        area: &mut [u8],
        page: &mut [u8],
        slot: u32,
        entry: &[u8],
    ) -> u8 {
        if self.is_invalid(device, geometry, area, page) || entry.len() != geometry.entry_size as usize {
            return INVALID;
        }
        if slot >= geometry.slots() || device.has_taken(slot) {
            return BAD_SLOT;
        }
        if !is_present(entry) {
            return MALFORMED;
        }
        let refusal = self.tell(device, geometry, area, Event::new(EV_DEV, DEV_CONF, slot));
        if refusal == DONE {
            let stored = match self.has(Fault::EntryStoredTo68) {
                true => &entry[..KNOWN_ENTRY],
                false => entry,
            };
            page[geometry.entry_at(slot)..][..stored.len()].copy_from_slice(stored);
            device.taken |= 1 << slot;
        }
        refusal
    }

    /// Refusals in order: 1, 6, and 10, 7 while on in revision 2.
    pub fn remove(self, device: &mut Device, geometry: Geometry, area: &mut [u8], page: &mut [u8], slot: u32) -> u8 {
        if self.is_invalid(device, geometry, area, page) {
            return INVALID;
        }
        if !device.has_taken(slot) {
            return BAD_SLOT;
        }
        let refusal = self.tell(device, geometry, area, Event::new(EV_DEV, DEV_RESET, slot));
        if refusal == DONE {
            page[geometry.entry_at(slot)..][..geometry.entry_size as usize].fill(0);
            device.taken &= !(1 << slot);
            if device.current_slot == slot && !self.has(Fault::CurrentSlotAfterRemove) {
                device.current_slot = NO_SLOT;
            }
        }
        refusal
    }

    /// Puts one record while on. While off the guest isn't told, and in revision 1 it never is.
    fn tell(self, device: &mut Device, geometry: Geometry, area: &mut [u8], record: Event) -> u8 {
        let is_silent = device.is_revision1() && !self.has(Fault::PlugToldInRevision1);
        if !device.on || is_silent {
            return DONE;
        }
        let refusal = self.room_refusal(device, geometry, area, 1);
        if refusal == DONE {
            put_records(device, geometry, area, &[record]);
        }
        refusal
    }
}

#[cfg(test)]
mod tests {
    use super::*;
    use crate::answer::{BAD_INDEX, NO_ROOM};
    use crate::bytes::put_word;
    use crate::geometry::PAGE;

    const GEOMETRY: Geometry = Geometry {
        pages: 1,
        record_size: 8,
        entry_size: 72,
    };

    fn entry() -> [u8; 72] {
        let mut entry = [0x11; 72];
        put_word(&mut entry, 40, 1);
        entry
    }

    fn on() -> Device {
        Device {
            on: true,
            client_rev_written: true,
            client_rev: 2,
            ..Device::fresh()
        }
    }

    fn add(device: &mut Device, area: &mut [u8], slot: u32, entry: &[u8]) -> u8 {
        Model::default().add(device, GEOMETRY, area, &mut [0; PAGE], slot, entry)
    }

    #[test]
    fn an_add_while_off_stores_the_whole_entry() {
        let (mut device, mut area, mut page) = (Device::fresh(), [7; PAGE], [7; PAGE]);
        let model = Model::default();
        let answer = model.add(&mut device, GEOMETRY, &mut area, &mut page, 55, &entry());
        assert_eq!(answer, DONE);
        assert_eq!(page[55 * 72..56 * 72], entry());
        assert!(area == [7; PAGE] && device.taken == 1 << 55);
        model.remove(&mut device, GEOMETRY, &mut area, &mut page, 55);
        assert_eq!(page[55 * 72..56 * 72], [0; 72]);
        assert_eq!(device, Device::fresh());
    }

    #[test]
    fn while_on_the_guest_is_told() {
        let (mut device, mut area) = (on(), [0; PAGE]);
        assert_eq!(add(&mut device, &mut area, 4, &entry()), DONE);
        assert_eq!(Event::read(&area, 8), Event::new(EV_DEV, DEV_CONF, 4));
        device.current_slot = 4;
        let answer = Model::default().remove(&mut device, GEOMETRY, &mut area, &mut [0; PAGE], 4);
        assert_eq!(answer, DONE);
        assert_eq!(Event::read(&area, 16), Event::new(EV_DEV, DEV_RESET, 4));
        assert_eq!(device.current_slot, NO_SLOT);
    }

    #[test]
    fn refusals_of_an_add() {
        let (mut device, mut area) = (on(), [0; PAGE]);
        assert_eq!(add(&mut device, &mut area, 4, &entry()[..68]), INVALID);
        assert_eq!(add(&mut device, &mut area, 56, &entry()), BAD_SLOT);
        assert_eq!(add(&mut device, &mut area, 4, &[0; 72]), MALFORMED);
        device.write_index = 510;
        assert_eq!(add(&mut device, &mut area, 4, &entry()), NO_ROOM);
        put_word(&mut area, 0, 511);
        assert_eq!(add(&mut device, &mut area, 4, &entry()), BAD_INDEX);
        assert_eq!(device.taken, 0);
    }

    #[test]
    fn in_revision_1_the_guest_is_not_told_whatever_its_pointer() {
        for (client_rev_written, client_rev) in [(false, 0), (true, 1)] {
            let mut device = Device {
                client_rev_written,
                client_rev,
                write_index: 510,
                ..on()
            };
            for read in [0, 511] {
                let mut area = [0; PAGE];
                put_word(&mut area, 0, read);
                let before = area;
                assert_eq!(add(&mut device, &mut area, 4, &entry()), DONE);
                let answer = Model::default().remove(&mut device, GEOMETRY, &mut area, &mut [0; PAGE], 4);
                assert_eq!((answer, device.write_index, area), (DONE, 510, before));
            }
        }
    }
}
