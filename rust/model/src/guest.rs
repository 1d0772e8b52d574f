//! The guest's other calls: records copied out, an entry looked up.

use crate::answer::{BAD_SLOT, DONE, INVALID};
use crate::bytes::put_word;
use crate::entries::{is_present, KNOWN_ENTRY};
use crate::geometry::{Geometry, PAGE};
use crate::records::{unread_pointers, KNOWN_RECORD, READ_POINTER};
use crate::{Fault, Model};

/// Copy-out's answer and the number of records, 0 where it was refused.
#[derive(Clone, Copy, Debug, PartialEq, Eq)]
pub struct Copied {
    pub answer: u8,
    pub count: u32,
}

impl Model {
    /// Copies the oldest records. Refusals in order: 1, 10, 11.
    pub fn copy_out(self, geometry: Geometry, area: &mut [u8], limit: u32, out: &mut [u8]) -> Copied {
        let refused = |answer| Copied { answer, count: 0 };
        if !geometry.is_allowed() || area.len() != geometry.area_length() {
            return refused(INVALID);
        }
        let (read, write) = match unread_pointers(geometry, area) {
            Ok(pointers) => pointers,
            Err(answer) => return refused(answer),
        };
        let unread = self.unread(geometry, read, write);
        let mut places = out.chunks_exact_mut(KNOWN_RECORD);
        let mut count = 0;
        let mut index = read;
        while count < limit.min(unread) {
            let Some(place) = places.next() else { break };
            let at = geometry.record_at(index);
            place.copy_from_slice(&area[at..at + KNOWN_RECORD]);
            count += 1;
            index = (index + 1) % geometry.ring_length();
        }
        put_word(area, READ_POINTER, index);
        if self.has(Fault::CopyOutCountsLimit) {
            count = limit;
        }
        Copied { answer: DONE, count }
    }

    /// The known stretch of a slot's entry. Refusals in order: 1, 6.
    pub fn lookup(self, geometry: Geometry, page: &[u8], slot: u32) -> Result<&[u8], u8> {
        if !geometry.is_allowed() || page.len() != PAGE {
            return Err(INVALID);
        }
        if slot >= geometry.slots() {
            return Err(BAD_SLOT);
        }
        let begin = match self.has(Fault::EntriesSteppedAt68) {
            true => KNOWN_ENTRY * slot as usize,
            false => geometry.entry_at(slot),
        };
        let entry = &page[begin..begin + KNOWN_ENTRY];
        if !is_present(entry) {
            return Err(BAD_SLOT);
        }
        Ok(entry)
    }

    /// A lookup whose entry is copied into a buffer of 68 bytes; another length is 1.
    pub fn lookup_copy(self, geometry: Geometry, page: &[u8], slot: u32, out: &mut [u8]) -> u8 {
        if out.len() != KNOWN_ENTRY {
            return INVALID;
        }
        match self.lookup(geometry, page, slot) {
            Ok(entry) => {
                out.copy_from_slice(entry);
                DONE
            }
            Err(answer) => answer,
        }
    }
}

#[cfg(test)]
mod tests {
    use super::*;
    use crate::answer::{BAD_INDEX, NOTHING_TO_READ};
    use crate::bytes::word;
    use crate::records::WRITE_POINTER;

    const GEOMETRY: Geometry = Geometry {
        pages: 1,
        record_size: 16,
        entry_size: 72,
    };

    fn area(read: u32, write: u32) -> [u8; PAGE] {
        let mut area = [0; PAGE];
        for (at, byte) in area.iter_mut().enumerate() {
            *byte = at as u8;
        }
        put_word(&mut area, READ_POINTER, read);
        put_word(&mut area, WRITE_POINTER, write);
        area
    }

    fn copied(area: &mut [u8], limit: u32, out: &mut [u8]) -> (u8, u32) {
        let copied = Model::default().copy_out(GEOMETRY, area, limit, out);
        (copied.answer, copied.count)
    }

    #[test]
    fn limit_unread_and_room_each_bound_the_count() {
        for (limit, length, count) in [(2, 64, 2), (9, 64, 3), (9, 17, 2), (0, 64, 0), (9, 7, 0)] {
            let mut area = area(253, 1);
            let mut out = [0xEE; 64];
            assert_eq!(
                copied(&mut area, limit, &mut out[..length]),
                (DONE, count),
                "limit {limit} length {length}"
            );
            assert_eq!(word(&area, READ_POINTER), (253 + count) % 255);
            assert!(out[count as usize * 8..].iter().all(|&byte| byte == 0xEE));
        }
    }

    #[test]
    fn the_oldest_records_come_first() {
        let mut area = area(254, 1);
        let mut out = [0; 16];
        assert_eq!(copied(&mut area, 2, &mut out), (DONE, 2));
        assert_eq!(out[..8], area[255 * 16..255 * 16 + 8]);
        assert_eq!(out[8..], area[16..24]);
    }

    #[test]
    fn refusals_of_a_copy() {
        assert_eq!(copied(&mut area(255, 0), 1, &mut [0; 8]), (BAD_INDEX, 0));
        assert_eq!(copied(&mut area(0, 255), 1, &mut [0; 8]), (BAD_INDEX, 0));
        assert_eq!(copied(&mut area(7, 7), 0, &mut [0; 8]), (NOTHING_TO_READ, 0));
        assert_eq!(copied(&mut [0; 100], 1, &mut [0; 8]), (INVALID, 0));
    }

    #[test]
    fn lookup_steps_by_the_entry_size() {
        let mut page = [0; PAGE];
        page[72..144].fill(0xFF);
        let model = Model::default();
        assert_eq!(model.lookup(GEOMETRY, &page, 1), Ok(&page[72..140]));
        assert_eq!(model.lookup(GEOMETRY, &page, 0), Err(BAD_SLOT));
        assert_eq!(model.lookup(GEOMETRY, &page, 56), Err(BAD_SLOT));
        assert_eq!(model.lookup(GEOMETRY, &page[1..], 1), Err(INVALID));
        assert_eq!(model.lookup_copy(GEOMETRY, &page, 1, &mut [0; 67]), INVALID);
    }
}
