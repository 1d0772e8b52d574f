//! Events of the keyboard ring.
use crate::refusal::{Answer, Refusal};
use thayarqo_sys::{self as sys, safe};

/// Bytes of an event in the ring.
pub const RING_EVENT_LENGTH: usize = sys::RING_EVENT_LENGTH;

/// An event of the keyboard ring. A contact is a number below the ring's contact limit.
///
/// ```
/// use thayarqo::{Refusal, RingEvent};
///
/// let pressed = RingEvent::Key { pressed: true, keycode: 30 };
/// let bytes = pressed.encode()?;
/// assert_eq!((bytes[0], bytes[1], bytes[4]), (3, 1, 30));
/// assert_eq!(RingEvent::decode(&bytes, 1)?, pressed);
/// # Ok::<(), Refusal>(())
/// ```
#[derive(Clone, Copy, Debug, PartialEq, Eq, Hash)]
#[allow(
    missing_docs,
    reason = "the fields are the protocol's, and say themselves what they are"
)]
pub enum RingEvent {
    /// The pointer has moved.
    Motion { x: i32, y: i32, z: i32 },
    /// A key or button went down, or up.
    Key { pressed: bool, keycode: u32 },
    /// The pointer is at a place.
    Pos { x: i32, y: i32, wheel: i32 },
    /// A contact begins.
    TouchDown { contact: u8, x: i32, y: i32 },
    /// A contact ends.
    TouchUp { contact: u8 },
    /// A contact has moved.
    TouchMotion { contact: u8, x: i32, y: i32 },
    /// The end of a frame of touches.
    TouchSyn { contact: u8 },
    /// The shape of a contact has changed.
    TouchShape { contact: u8, major: u32, minor: u32 },
    /// The orientation of a contact has changed.
    TouchOrient { contact: u8, orientation: i16 },
    /// An event of a type that isn't known here. It can be taken, but not put.
    Unknown,
}

impl RingEvent {
    /// The event's bytes in the ring. [`Refusal::Malformed`] where it is unknown.
    pub fn encode(self) -> Answer<[u8; RING_EVENT_LENGTH]> {
        let mut bytes = [0; RING_EVENT_LENGTH];
        Refusal::check(safe::ring_encode(&mut bytes, self.numbers()))?;
        Ok(bytes)
    }

    /// The event of [`RING_EVENT_LENGTH`] bytes. The contact limit is 1 to 32.
    pub fn decode(bytes: &[u8], contact_limit: u32) -> Answer<RingEvent> {
        RingEvent::found(safe::ring_decode(bytes, contact_limit))
    }

    pub(crate) fn found(found: sys::RingFound) -> Answer<RingEvent> {
        Refusal::check(found.answer).map(|()| RingEvent::of_numbers(found.event))
    }

    fn of_numbers(event: sys::RingEvent) -> RingEvent {
        let sys::RingEvent { x, y, z, .. } = event;
        match event.kind {
            sys::RING_MOTION => RingEvent::Motion { x, y, z },
            sys::RING_KEY => RingEvent::Key {
                pressed: event.pressed,
                keycode: event.keycode,
            },
            sys::RING_POSITION => RingEvent::Pos { x, y, wheel: z },
            sys::RING_TOUCH => RingEvent::touch_of_numbers(event),
            _ => RingEvent::Unknown,
        }
    }

    fn touch_of_numbers(event: sys::RingEvent) -> RingEvent {
        let sys::RingEvent { contact, x, y, .. } = event;
        match event.subtype {
            sys::TOUCH_DOWN => RingEvent::TouchDown { contact, x, y },
            sys::TOUCH_UP => RingEvent::TouchUp { contact },
            sys::TOUCH_MOTION => RingEvent::TouchMotion { contact, x, y },
            sys::TOUCH_SYN => RingEvent::TouchSyn { contact },
            sys::TOUCH_SHAPE => RingEvent::TouchShape {
                contact,
                major: event.major,
                minor: event.minor,
            },
            sys::TOUCH_ORIENT => RingEvent::TouchOrient {
                contact,
                orientation: event.orientation,
            },
            _ => RingEvent::Unknown,
        }
    }

    fn numbers(self) -> sys::RingEvent {
        let mut event = sys::RingEvent::default();
        (event.kind, event.subtype, event.contact) = self.head();
        match self {
            RingEvent::Motion { x, y, z } => (event.x, event.y, event.z) = (x, y, z),
            RingEvent::Key { pressed, keycode } => (event.pressed, event.keycode) = (pressed, keycode),
            RingEvent::Pos { x, y, wheel } => (event.x, event.y, event.z) = (x, y, wheel),
            RingEvent::TouchDown { x, y, .. } => (event.x, event.y) = (x, y),
            RingEvent::TouchMotion { x, y, .. } => (event.x, event.y) = (x, y),
            RingEvent::TouchShape { major, minor, .. } => (event.major, event.minor) = (major, minor),
            RingEvent::TouchOrient { orientation, .. } => event.orientation = orientation,
            RingEvent::TouchUp { .. } | RingEvent::TouchSyn { .. } | RingEvent::Unknown => {}
        }
        event
    }

    /// The kind, and a touch's subtype and contact.
    fn head(self) -> (u8, u8, u8) {
        match self {
            RingEvent::Motion { .. } => (sys::RING_MOTION, 0, 0),
            RingEvent::Key { .. } => (sys::RING_KEY, 0, 0),
            RingEvent::Pos { .. } => (sys::RING_POSITION, 0, 0),
            RingEvent::TouchDown { contact, .. } => (sys::RING_TOUCH, sys::TOUCH_DOWN, contact),
            RingEvent::TouchUp { contact } => (sys::RING_TOUCH, sys::TOUCH_UP, contact),
            RingEvent::TouchMotion { contact, .. } => (sys::RING_TOUCH, sys::TOUCH_MOTION, contact),
            RingEvent::TouchSyn { contact } => (sys::RING_TOUCH, sys::TOUCH_SYN, contact),
            RingEvent::TouchShape { contact, .. } => (sys::RING_TOUCH, sys::TOUCH_SHAPE, contact),
            RingEvent::TouchOrient { contact, .. } => (sys::RING_TOUCH, sys::TOUCH_ORIENT, contact),
            RingEvent::Unknown => (sys::RING_UNKNOWN, 0, 0),
        }
    }
}
