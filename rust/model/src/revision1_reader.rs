//! The reader of a guest of revision 1. It has no state.

use crate::answer::{DONE, INVALID, MALFORMED};
use crate::bytes::put_word;
use crate::geometry::Geometry;
use crate::records::{unread_pointers, Event, READ_POINTER};
use crate::{Fault, Model};

/// A record that was taken with its answer; a refusal carries zeros.
#[derive(Clone, Copy, Debug, Default, PartialEq, Eq)]
pub struct TakenRecord {
    pub answer: u8,
    pub flags: u16,
    pub revision: u16,
    pub data: u32,
}

impl TakenRecord {
    fn refused(answer: u8) -> TakenRecord {
        TakenRecord {
            answer,
            ..TakenRecord::default()
        }
    }
}

impl Model {
    /// Takes the oldest record, whatever it holds. Refusals in order: 1, 10, 11.
    pub fn revision1_step(self, geometry: Geometry, area: &mut [u8]) -> TakenRecord {
        if !geometry.is_allowed() || area.len() != geometry.area_length() {
            return TakenRecord::refused(INVALID);
        }
        let (read, _) = match unread_pointers(geometry, area) {
            Ok(pointers) => pointers,
            Err(answer) => return TakenRecord::refused(answer),
        };
        let record = Event::read(area, geometry.record_at(read));
        put_word(area, READ_POINTER, (read + 1) % geometry.ring_length());
        if record.code != 1 && self.has(Fault::OtherRevisionRefused) {
            return TakenRecord::refused(MALFORMED);
        }
        TakenRecord {
            answer: DONE,
            flags: record.kind,
            revision: record.code,
            data: record.value,
        }
    }
}

#[cfg(test)]
mod tests {
    use super::*;
    use crate::answer::{BAD_INDEX, NOTHING_TO_READ};
    use crate::bytes::word;
    use crate::geometry::PAGE;
    use crate::records::WRITE_POINTER;

    const GEOMETRY: Geometry = Geometry {
        pages: 1,
        record_size: 64,
        entry_size: 68,
    };

    fn area(read: u32, write: u32) -> [u8; PAGE] {
        let mut area = [0xEE; PAGE];
        put_word(&mut area, READ_POINTER, read);
        put_word(&mut area, WRITE_POINTER, write);
        area
    }

    #[test]
    fn a_step_takes_one_record_round_the_end() {
        let mut area = area(62, 1);
        Event::new(0x0402, 3, 0x0506_0708).put(&mut area, 63 * 64);
        let taken = TakenRecord {
            answer: DONE,
            flags: 0x0402,
            revision: 3,
            data: 0x0506_0708,
        };
        assert_eq!(Model::default().revision1_step(GEOMETRY, &mut area), taken);
        assert_eq!(word(&area, READ_POINTER), 0);
    }

    #[test]
    fn refusals_of_a_step_change_nothing() {
        for (read, write, answer) in [
            (63, 0, BAD_INDEX),
            (0, 63, BAD_INDEX),
            (63, 63, BAD_INDEX),
            (5, 5, NOTHING_TO_READ),
        ] {
            let mut page = area(read, write);
            let taken = Model::default().revision1_step(GEOMETRY, &mut page);
            assert_eq!(taken, TakenRecord::refused(answer));
            assert_eq!(page, area(read, write));
        }
        let taken = Model::default().revision1_step(GEOMETRY, &mut [0; PAGE - 4]);
        assert_eq!(taken, TakenRecord::refused(INVALID));
        let narrow = Geometry {
            entry_size: 64,
            ..GEOMETRY
        };
        let taken = Model::default().revision1_step(narrow, &mut area(0, 1));
        assert_eq!(taken, TakenRecord::refused(INVALID));
    }
}
