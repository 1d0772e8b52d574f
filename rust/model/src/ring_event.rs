//! The events of the keyboard ring, and the 40 bytes of each.

use crate::answer::{DONE, INVALID, MALFORMED};
use crate::bytes::{half_word, put_half_word, put_word, word};
use crate::{Fault, Model};

/// Bytes of an event.
pub const RING_EVENT: usize = 40;

pub const MOTION: u8 = 1;
pub const KEY: u8 = 3;
pub const POS: u8 = 4;
pub const MTOUCH: u8 = 5;

pub const MT_DOWN: u8 = 0;
pub const MT_UP: u8 = 1;
pub const MT_MOTION: u8 = 2;
pub const MT_SYN: u8 = 3;
pub const MT_SHAPE: u8 = 4;
pub const MT_ORIENT: u8 = 5;

/// An event's numbers. Those that its kind doesn't have are 0; kind 0 is an unknown event.
#[derive(Clone, Copy, Debug, Default, PartialEq, Eq)]
pub struct RingNumbers {
    pub kind: u8,
    pub subtype: u8,
    pub contact: u8,
    pub pressed: bool,
    pub x: i32,
    pub y: i32,
    /// The wheel in POS.
    pub z: i32,
    pub keycode: u32,
    pub major: u32,
    pub minor: u32,
    pub orientation: i16,
}

/// A taken or decoded event with its answer; a refusal carries an event of zeros.
#[derive(Clone, Copy, Debug, PartialEq, Eq)]
pub struct Taken {
    pub answer: u8,
    pub event: RingNumbers,
}

impl Taken {
    pub(crate) fn refused(answer: u8) -> Taken {
        Taken {
            answer,
            event: RingNumbers::default(),
        }
    }
}

fn signed_word(bytes: &[u8], at: usize) -> i32 {
    word(bytes, at) as i32
}

fn put_signed_word(bytes: &mut [u8], at: usize, value: i32) {
    put_word(bytes, at, value as u32);
}

fn is_known(kind: u8, subtype: u8) -> bool {
    matches!(kind, MOTION | KEY | POS) || kind == MTOUCH && subtype <= MT_ORIENT
}

/// The bytes of a known event.
fn bytes_of(event: &RingNumbers) -> [u8; RING_EVENT] {
    let mut bytes = [0; RING_EVENT];
    bytes[0] = event.kind;
    match event.kind {
        MOTION | POS => {
            put_signed_word(&mut bytes, 4, event.x);
            put_signed_word(&mut bytes, 8, event.y);
            put_signed_word(&mut bytes, 12, event.z);
        }
        KEY => {
            bytes[1] = u8::from(event.pressed);
            put_word(&mut bytes, 4, event.keycode);
        }
        _ => put_touch(&mut bytes, event),
    }
    bytes
}

fn put_touch(bytes: &mut [u8; RING_EVENT], event: &RingNumbers) {
    bytes[1] = event.subtype;
    bytes[2] = event.contact;
    match event.subtype {
        MT_DOWN | MT_MOTION => {
            put_signed_word(bytes, 8, event.x);
            put_signed_word(bytes, 12, event.y);
        }
        MT_SHAPE => {
            put_word(bytes, 8, event.major);
            put_word(bytes, 12, event.minor);
        }
        MT_ORIENT => put_half_word(bytes, 8, event.orientation as u16),
        _ => {}
    }
}

/// The numbers that the bytes of a known event hold, whatever its reserved bytes are.
fn numbers_of(bytes: &[u8]) -> RingNumbers {
    let mut event = RingNumbers {
        kind: bytes[0],
        ..RingNumbers::default()
    };
    match event.kind {
        MOTION | POS => {
            event.x = signed_word(bytes, 4);
            event.y = signed_word(bytes, 8);
            event.z = signed_word(bytes, 12);
        }
        KEY => {
            event.pressed = bytes[1] == 1;
            event.keycode = word(bytes, 4);
        }
        _ => take_touch(bytes, &mut event),
    }
    event
}

fn take_touch(bytes: &[u8], event: &mut RingNumbers) {
    event.subtype = bytes[1];
    event.contact = bytes[2];
    match event.subtype {
        MT_DOWN | MT_MOTION => {
            event.x = signed_word(bytes, 8);
            event.y = signed_word(bytes, 12);
        }
        MT_SHAPE => {
            event.major = word(bytes, 8);
            event.minor = word(bytes, 12);
        }
        MT_ORIENT => event.orientation = half_word(bytes, 8) as i16,
        _ => {}
    }
}

pub(crate) fn is_contact_limit(limit: u32) -> bool {
    (1..=32).contains(&limit)
}

impl Model {
    /// Refusals in order: 1 where `out` isn't 40 bytes long, 9 for an unknown event.
    pub fn encode(self, event: &RingNumbers, out: &mut [u8]) -> u8 {
        if out.len() != RING_EVENT {
            return INVALID;
        }
        if !is_known(event.kind, event.subtype) {
            return MALFORMED;
        }
        out.copy_from_slice(&bytes_of(event));
        DONE
    }

    /// Refusals in order: 1 for another length or a limit that isn't 1 to 32, 9 for a malformed event.
    pub fn decode(self, bytes: &[u8], limit: u32) -> Taken {
        if bytes.len() != RING_EVENT || !is_contact_limit(limit) {
            return Taken::refused(INVALID);
        }
        self.event_of(bytes, limit)
    }

    /// The event of 40 bytes under a right limit: unknown, malformed, or its numbers. Reserved bytes are those that the numbers don't give.
    pub(crate) fn event_of(self, bytes: &[u8], limit: u32) -> Taken {
        if !is_known(bytes[0], bytes[1]) {
            return Taken::refused(DONE);
        }
        let mut bytes = bytes.to_vec();
        if bytes[0] == KEY && self.has(Fault::PressedAboveOne) {
            bytes[1] = bytes[1].min(1);
        }
        let limit = limit + u32::from(self.has(Fault::ContactAtLimit));
        let event = numbers_of(&bytes);
        if bytes_of(&event) != *bytes || u32::from(event.contact) >= limit {
            return Taken::refused(MALFORMED);
        }
        Taken { answer: DONE, event }
    }
}

#[cfg(test)]
mod tests {
    use super::*;

    fn with(changes: &[(usize, u8)]) -> [u8; RING_EVENT] {
        let mut bytes = [0; RING_EVENT];
        for &(at, byte) in changes {
            bytes[at] = byte;
        }
        bytes
    }

    fn decode(changes: &[(usize, u8)], limit: u32) -> Taken {
        Model::default().decode(&with(changes), limit)
    }

    #[test]
    fn every_kind_comes_back() {
        for kind in [MOTION, KEY, POS] {
            comes_back(kind, 0);
        }
        for subtype in MT_DOWN..=MT_ORIENT {
            comes_back(MTOUCH, subtype);
        }
    }

    fn comes_back(kind: u8, subtype: u8) {
        let given = RingNumbers {
            kind,
            subtype,
            contact: 31,
            pressed: true,
            x: -1,
            y: i32::MIN,
            z: 5,
            keycode: 0x110,
            major: u32::MAX,
            minor: 7,
            orientation: -180,
        };
        let mut bytes = [0xEE; RING_EVENT];
        assert_eq!(Model::default().encode(&given, &mut bytes), DONE);
        let taken = Model::default().decode(&bytes, 32);
        assert_eq!(taken.answer, DONE);
        let mut again = [0xEE; RING_EVENT];
        Model::default().encode(&taken.event, &mut again);
        assert_eq!(again, bytes);
    }

    #[test]
    fn an_unknown_event_is_no_refusal_whatever_its_bytes() {
        for changes in [[(0, 0), (39, 1)], [(0, 2), (1, 9)], [(0, 5), (1, 6)]] {
            assert_eq!(decode(&changes, 1), Taken::refused(DONE));
        }
        assert_eq!(
            Model::default().encode(&RingNumbers::default(), &mut [0; RING_EVENT]),
            MALFORMED
        );
    }

    #[test]
    fn reserved_bytes_pressed_and_contact() {
        assert_eq!(decode(&[(0, KEY), (1, 1)], 1).answer, DONE);
        assert_eq!(decode(&[(0, KEY), (1, 2)], 1).answer, MALFORMED);
        assert_eq!(decode(&[(0, MOTION), (16, 1)], 1).answer, MALFORMED);
        assert_eq!(decode(&[(0, MOTION), (1, 1)], 1).answer, MALFORMED);
        assert_eq!(decode(&[(0, MTOUCH), (1, 1), (2, 1)], 2).answer, DONE);
        assert_eq!(decode(&[(0, MTOUCH), (1, 1), (2, 1)], 1).answer, MALFORMED);
        assert_eq!(decode(&[(0, MTOUCH), (1, 5), (10, 1)], 1).answer, MALFORMED);
    }

    #[test]
    fn lengths_and_limits() {
        assert_eq!(decode(&[], 0).answer, INVALID);
        assert_eq!(decode(&[], 33).answer, INVALID);
        assert_eq!(Model::default().decode(&[1; 39], 1).answer, INVALID);
        let motion = RingNumbers {
            kind: MOTION,
            ..RingNumbers::default()
        };
        assert_eq!(Model::default().encode(&motion, &mut [0; 41]), INVALID);
    }
}
