//! What a packet comes to for a guest of revision 1: records for motion, position, buttons and the wheel, then a FENCE.

use crate::answer::NOT_OFFERED;
use crate::device::Position;
use crate::records::{Event, EV_ABS, EV_KEY, EV_REL};
use crate::{Fault, Model};

pub const ABSOLUTE: u16 = 1 << 0;
pub const RELATIVE: u16 = 1 << 1;
pub const FENCE: u16 = 1 << 2;
pub const LEFT_BUTTON_DOWN: u16 = 1 << 3;
pub const LEFT_BUTTON_UP: u16 = 1 << 4;
pub const RIGHT_BUTTON_DOWN: u16 = 1 << 5;
pub const RIGHT_BUTTON_UP: u16 = 1 << 6;
pub const MIDDLE_BUTTON_DOWN: u16 = 1 << 7;
pub const MIDDLE_BUTTON_UP: u16 = 1 << 8;
pub const VWHEEL: u16 = 1 << 10;

pub const REL_X: u16 = 0;
pub const REL_Y: u16 = 1;
pub const REL_HWHEEL: u16 = 6;
pub const REL_WHEEL: u16 = 8;
pub const ABS_X: u16 = 0;
pub const ABS_Y: u16 = 1;
pub const BTN_LEFT: u16 = 0x110;
pub const BTN_RIGHT: u16 = 0x111;
pub const BTN_MIDDLE: u16 = 0x112;

/// The axes and the wheel, each by type and code: they come once in a packet at most.
pub const SINGLE: [(u16, u16); 5] = [
    (EV_REL, REL_X),
    (EV_REL, REL_Y),
    (EV_REL, REL_WHEEL),
    (EV_ABS, ABS_X),
    (EV_ABS, ABS_Y),
];

/// A packet's records, and the position that is the last one after it.
#[derive(Clone, Debug, PartialEq, Eq)]
pub struct Group {
    pub records: Vec<Event>,
    pub position: Position,
}

/// A record: flags, revision 1, data.
const fn record(flags: u16, data: u32) -> Event {
    Event::new(flags, 1, data)
}

/// X in the low half, Y in the high one.
fn pair(x: u16, y: u16) -> u32 {
    u32::from(x) | u32::from(y) << 16
}

/// The value of an event that comes once at most.
fn value_of(events: &[Event], kind: u16, code: u16) -> Option<u32> {
    let event = events.iter().find(|event| (event.kind, event.code) == (kind, code));
    event.map(|event| event.value)
}

/// The record of a button, if the event is one. Any value but 0 is down.
fn button(event: &Event) -> Option<Event> {
    let (down, up) = match (event.kind, event.code) {
        (EV_KEY, BTN_LEFT) => (LEFT_BUTTON_DOWN, LEFT_BUTTON_UP),
        (EV_KEY, BTN_RIGHT) => (RIGHT_BUTTON_DOWN, RIGHT_BUTTON_UP),
        (EV_KEY, BTN_MIDDLE) => (MIDDLE_BUTTON_DOWN, MIDDLE_BUTTON_UP),
        _ => return None,
    };
    Some(record(if event.value == 0 { up } else { down }, 0))
}

impl Model {
    /// The group of a packet, at an acceleration and after a last position. 8 where an event or a value has no form.
    pub fn group(self, acceleration: u16, last: Position, events: &[Event]) -> Result<Group, u8> {
        if !events.iter().all(|event| self.has_form(event)) || self.has_repeated(events) {
            return Err(NOT_OFFERED);
        }
        let motion = |code| value_of(events, EV_REL, code).map(|value| self.scaled(value, acceleration));
        let place = |code| value_of(events, EV_ABS, code).map(|value| self.coordinate(value));
        let (motion_x, motion_y) = (motion(REL_X).transpose()?, motion(REL_Y).transpose()?);
        let (place_x, place_y) = (place(ABS_X).transpose()?, place(ABS_Y).transpose()?);
        let position = Position {
            x: place_x.unwrap_or(last.x),
            y: place_y.unwrap_or(last.y),
        };

        let mut movements = Vec::new();
        if motion_x.or(motion_y).is_some() {
            let data = pair(motion_x.unwrap_or(0), motion_y.unwrap_or(0));
            movements.push(record(RELATIVE, data));
        }
        if place_x.or(place_y).is_some() {
            let data = match self.has(Fault::MissingAxisAsZero) {
                true => pair(place_x.unwrap_or(0), place_y.unwrap_or(0)),
                false => pair(position.x, position.y),
            };
            movements.push(record(ABSOLUTE, data));
        }
        let records = self.in_order(movements, acceleration, events);
        Ok(Group { records, position })
    }

    /// Motion and position, the buttons as they came, the wheel, the FENCE.
    fn in_order(self, movements: Vec<Event>, acceleration: u16, events: &[Event]) -> Vec<Event> {
        let buttons = events.iter().filter_map(button).collect();
        let mut records = match self.has(Fault::ButtonsBeforeMotion) {
            true => [buttons, movements].concat(),
            false => [movements, buttons].concat(),
        };
        if let Some(value) = value_of(events, EV_REL, REL_WHEEL) {
            let data = match self.has(Fault::WheelScaled) {
                true => self.accelerated(value, acceleration) as u32,
                false => value,
            };
            records.push(record(VWHEEL, data));
        }
        match self.fault {
            Fault::FenceMissing => {}
            Fault::FenceFirst => records.insert(0, record(FENCE, 0)),
            _ => records.push(record(FENCE, 0)),
        }
        records
    }

    /// Whether revision 1 knows such an event at all.
    fn has_form(self, event: &Event) -> bool {
        let hwheel = (event.kind, event.code) == (EV_REL, REL_HWHEEL);
        SINGLE.contains(&(event.kind, event.code))
            || button(event).is_some()
            || hwheel && self.has(Fault::HwheelAccepted)
    }

    fn has_repeated(self, events: &[Event]) -> bool {
        let count = |single| events.iter().filter(|event| (event.kind, event.code) == single).count();
        SINGLE.into_iter().any(|single| count(single) > 1) && !self.has(Fault::AxisRepeated)
    }

    /// A signed value times an acceleration in tenths, cut towards zero.
    fn accelerated(self, value: u32, acceleration: u16) -> i64 {
        let tenths = i64::from(value as i32) * i64::from(acceleration);
        match self.has(Fault::MotionRoundedDown) {
            true => tenths.div_euclid(10),
            false => tenths / 10,
        }
    }

    /// 8 where 16 bits don't hold it.
    fn scaled(self, value: u32, acceleration: u16) -> Result<u16, u8> {
        let motion = self.accelerated(value, acceleration);
        let most = 32767 + i64::from(self.has(Fault::MotionOf32768));
        match (-32768..=most).contains(&motion) {
            true => Ok(motion as u16),
            false => Err(NOT_OFFERED),
        }
    }

    /// 8 where 16 bits don't hold it.
    fn coordinate(self, value: u32) -> Result<u16, u8> {
        let most = 65535 + u32::from(self.has(Fault::CoordinateOf65536));
        match value <= most {
            true => Ok(value as u16),
            false => Err(NOT_OFFERED),
        }
    }
}

#[cfg(test)]
mod tests;
