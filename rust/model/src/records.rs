//! Event records in the event area: one read, some put, the two pointers, room.

use crate::answer::{BAD_INDEX, DONE, NOTHING_TO_READ, NO_ROOM};
use crate::bytes::{half_word, put_half_word, put_word, word};
use crate::device::Device;
use crate::geometry::Geometry;
use crate::{Fault, Model};

pub const EV_SYN: u16 = 0;
pub const EV_KEY: u16 = 1;
pub const EV_REL: u16 = 2;
pub const EV_ABS: u16 = 3;
pub const EV_DEV: u16 = 6;

pub const SYN_REPORT: u16 = 0;
pub const SYN_MT_REPORT: u16 = 2;
pub const SYN_DROPPED: u16 = 3;

pub const DEV_SET: u16 = 1;
pub const DEV_CONF: u16 = 2;
pub const DEV_RESET: u16 = 3;

/// In a DEV_RESET: all slots.
pub const ALL_SLOTS: u32 = 0xFFFF;

/// Bytes of a record that carry its meaning.
pub const KNOWN_RECORD: usize = 8;

/// Places of the pointers in the event area.
pub const READ_POINTER: usize = 0;
pub const WRITE_POINTER: usize = 4;

#[derive(Clone, Copy, Debug, Default, PartialEq, Eq)]
pub struct Event {
    pub kind: u16,
    pub code: u16,
    pub value: u32,
}

impl Event {
    pub const fn new(kind: u16, code: u16, value: u32) -> Event {
        Event { kind, code, value }
    }

    pub(crate) fn read(bytes: &[u8], at: usize) -> Event {
        Event::new(half_word(bytes, at), half_word(bytes, at + 2), word(bytes, at + 4))
    }

    pub(crate) fn put(self, bytes: &mut [u8], at: usize) {
        put_half_word(bytes, at, self.kind);
        put_half_word(bytes, at + 2, self.code);
        put_word(bytes, at + 4, self.value);
    }
}

/// Puts records in order, each with WRITE_PTR after it. There is room for them.
pub(crate) fn put_records(device: &mut Device, geometry: Geometry, area: &mut [u8], records: &[Event]) {
    for record in records {
        record.put(area, geometry.record_at(device.write_index));
        device.write_index = (device.write_index + 1) % geometry.ring_length();
        put_word(area, WRITE_POINTER, device.write_index);
    }
}

/// The read and the write pointer, for whoever reads. 10 where one of them is impossible, 11 where there is nothing between them.
pub(crate) fn unread_pointers(geometry: Geometry, area: &[u8]) -> Result<(u32, u32), u8> {
    let (read, write) = (word(area, READ_POINTER), word(area, WRITE_POINTER));
    let length = geometry.ring_length();
    if read >= length || write >= length {
        return Err(BAD_INDEX);
    }
    if read == write {
        return Err(NOTHING_TO_READ);
    }
    Ok((read, write))
}

impl Model {
    /// How many records lie between two pointers, both below the ring's length.
    pub(crate) fn unread(self, geometry: Geometry, read: u32, write: u32) -> u32 {
        let length = geometry.ring_length();
        if self.has(Fault::UnreadWithoutModulus) {
            write.wrapping_sub(read)
        } else {
            (write + length - read) % length
        }
    }

    /// 10 where the guest's read pointer is impossible, 7 where that many records don't fit.
    pub(crate) fn room_refusal(self, device: &Device, geometry: Geometry, area: &[u8], records: usize) -> u8 {
        let read = word(area, READ_POINTER);
        if read >= geometry.ring_length() {
            return BAD_INDEX;
        }
        if records as u64 > self.room(device, geometry, read) {
            return NO_ROOM;
        }
        DONE
    }

    /// How many records fit. At most R - 1 are unread.
    pub(crate) fn room(self, device: &Device, geometry: Geometry, read: u32) -> u64 {
        let most = geometry.ring_length() - u32::from(!self.has(Fault::RoomForAFullRing));
        let unread = self.unread(geometry, read, device.write_index);
        u64::from(most).saturating_sub(u64::from(unread))
    }
}

#[cfg(test)]
mod tests {
    use super::*;
    use crate::geometry::PAGE;

    const GEOMETRY: Geometry = Geometry {
        pages: 1,
        record_size: 64,
        entry_size: 68,
    };

    fn device(write_index: u32) -> Device {
        Device {
            write_index,
            ..Device::fresh()
        }
    }

    #[test]
    fn unread_goes_round() {
        let model = Model::default();
        assert_eq!(model.unread(GEOMETRY, 0, 62), 62);
        assert_eq!(model.unread(GEOMETRY, 62, 1), 2);
        assert_eq!(model.unread(GEOMETRY, 5, 5), 0);
    }

    #[test]
    fn room_ends_at_one_less_than_the_ring() {
        let area = [0; PAGE];
        let model = Model::default();
        assert_eq!(model.room_refusal(&device(60), GEOMETRY, &area, 2), DONE);
        assert_eq!(model.room_refusal(&device(60), GEOMETRY, &area, 3), NO_ROOM);
    }

    #[test]
    fn a_read_pointer_at_the_ring_length_is_impossible() {
        let mut area = [0; PAGE];
        put_word(&mut area, READ_POINTER, 62);
        assert_eq!(Model::default().room_refusal(&device(0), GEOMETRY, &area, 1), DONE);
        put_word(&mut area, READ_POINTER, 63);
        assert_eq!(Model::default().room_refusal(&device(0), GEOMETRY, &area, 1), BAD_INDEX);
    }

    #[test]
    fn a_put_writes_eight_bytes_and_the_pointer() {
        let mut area = [0xEE; PAGE];
        let mut device = device(62);
        put_records(&mut device, GEOMETRY, &mut area, &[Event::new(6, 3, 0x01020304)]);
        assert_eq!(device.write_index, 0);
        assert_eq!(word(&area, WRITE_POINTER), 0);
        assert_eq!(area[4032..4040], [6, 0, 3, 0, 4, 3, 2, 1]);
        assert!(area[8..4032].iter().chain(&area[4040..]).all(|&byte| byte == 0xEE));
    }
}
