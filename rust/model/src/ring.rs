//! The page of the keyboard ring: put for the back end, take for the front end.

use crate::answer::{BAD_INDEX, DONE, INVALID, MALFORMED, NOTHING_TO_READ, NO_ROOM};
use crate::bytes::{put_word, word};
use crate::geometry::PAGE;
use crate::ring_event::{is_contact_limit, Taken, RING_EVENT};
use crate::{Fault, Model};

const IN_CONS: usize = 0;
const IN_PROD: usize = 4;
const FIRST_EVENT: usize = 1024;

/// How many events the ring holds.
pub const RING_PLACES: u32 = 51;

impl Model {
    /// The back end's put. Refusals in order: 1, 9, 10, 7.
    pub fn ring_put(self, page: &mut [u8], in_prod: &mut u32, limit: u32, event: &[u8]) -> u8 {
        if page.len() != PAGE || event.len() != RING_EVENT || !is_contact_limit(limit) {
            return INVALID;
        }
        let taken = self.event_of(event, limit);
        if taken.answer != DONE || taken.event.kind == 0 {
            return MALFORMED;
        }
        match in_prod.wrapping_sub(word(page, IN_CONS)) {
            distance if distance > RING_PLACES => return BAD_INDEX,
            RING_PLACES => {
                *in_prod = in_prod.wrapping_add(u32::from(self.has(Fault::RingIndexMovedAtRefusal)));
                return NO_ROOM;
            }
            _ => {}
        }
        page[self.event_at(*in_prod)..][..RING_EVENT].copy_from_slice(event);
        *in_prod = in_prod.wrapping_add(1);
        put_word(page, IN_PROD, *in_prod);
        DONE
    }

    /// The front end's take. Refusals in order: 1, 10, 11, then 9, whose event is consumed.
    pub fn ring_take(self, page: &mut [u8], in_cons: &mut u32, limit: u32) -> Taken {
        if page.len() != PAGE || !is_contact_limit(limit) {
            return Taken::refused(INVALID);
        }
        match word(page, IN_PROD).wrapping_sub(*in_cons) {
            distance if distance > RING_PLACES => return Taken::refused(BAD_INDEX),
            0 => return Taken::refused(NOTHING_TO_READ),
            _ => {}
        }
        let taken = self.event_of(&page[self.event_at(*in_cons)..][..RING_EVENT], limit);
        *in_cons = in_cons.wrapping_add(1);
        put_word(page, IN_CONS, *in_cons);
        taken
    }

    /// Where an index's event begins. Indices are free-running counts.
    fn event_at(self, index: u32) -> usize {
        let places = RING_PLACES - u32::from(self.has(Fault::RingPlaceModulo50));
        FIRST_EVENT + RING_EVENT * (index % places) as usize
    }
}

#[cfg(test)]
mod tests {
    use super::*;
    use crate::ring_event::{KEY, MOTION};

    fn key(code: u8) -> [u8; RING_EVENT] {
        let mut bytes = [0; RING_EVENT];
        (bytes[0], bytes[4]) = (KEY, code);
        bytes
    }

    #[test]
    fn places_of_the_paper() {
        assert_eq!(Model::default().event_at(u32::MAX), 1024);
        assert_eq!(Model::default().event_at(50), 3024);
    }

    #[test]
    fn what_is_taken_is_what_was_put() {
        let (mut page, mut in_prod, mut in_cons) = ([0; PAGE], 0, 0);
        let model = Model::default();
        for code in 0..51 {
            assert_eq!(model.ring_put(&mut page, &mut in_prod, 1, &key(code)), DONE);
        }
        assert_eq!(model.ring_put(&mut page, &mut in_prod, 1, &key(99)), NO_ROOM);
        for code in 0..51 {
            let taken = model.ring_take(&mut page, &mut in_cons, 1);
            assert_eq!((taken.answer, taken.event.keycode), (DONE, code));
        }
        let dry = model.ring_take(&mut page, &mut in_cons, 1);
        assert_eq!(dry.answer, NOTHING_TO_READ);
        assert_eq!((word(&page, IN_CONS), word(&page, IN_PROD)), (51, 51));
    }

    #[test]
    fn the_index_turns_to_zero() {
        let (mut page, mut in_prod) = ([0; PAGE], u32::MAX);
        put_word(&mut page, IN_CONS, u32::MAX - 2);
        let answer = Model::default().ring_put(&mut page, &mut in_prod, 1, &key(7));
        assert_eq!((answer, in_prod, word(&page, IN_PROD)), (DONE, 0, 0));
        assert_eq!(page[1024..1064], key(7));
    }

    #[test]
    fn impossible_indices_and_unknown_events() {
        let (mut page, mut index) = ([0; PAGE], 52);
        let model = Model::default();
        assert_eq!(model.ring_put(&mut page, &mut index, 1, &key(1)), BAD_INDEX);
        assert_eq!(model.ring_put(&mut page, &mut index, 1, &[2; RING_EVENT]), MALFORMED);
        assert_eq!(model.ring_take(&mut page, &mut index, 1).answer, BAD_INDEX);
    }

    #[test]
    fn a_malformed_event_is_consumed() {
        let (mut page, mut in_cons) = ([0; PAGE], 0);
        put_word(&mut page, IN_PROD, 1);
        (page[1024], page[1025]) = (MOTION, 1);
        let taken = Model::default().ring_take(&mut page, &mut in_cons, 1);
        assert_eq!(taken, Taken::refused(MALFORMED));
        assert_eq!((in_cons, word(&page, IN_CONS)), (1, 1));
    }
}
