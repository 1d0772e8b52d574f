//! Packets, and the groups that they come to.

use super::*;

const LAST: Position = Position { x: 7, y: 8 };

fn rel(code: u16, value: i32) -> Event {
    Event::new(EV_REL, code, value as u32)
}

fn abs(code: u16, value: u32) -> Event {
    Event::new(EV_ABS, code, value)
}

fn group(acceleration: u16, events: &[Event]) -> Result<Group, u8> {
    Model::default().group(acceleration, LAST, events)
}

/// The records but for the FENCE, which has to be there.
fn records(events: &[Event]) -> Vec<Event> {
    let mut records = group(10, events).expect("events with a form").records;
    assert_eq!(records.pop(), Some(record(FENCE, 0)));
    records
}

#[test]
fn motion_is_cut_towards_zero() {
    let scaled = |value: i32, acceleration| {
        let scaled = Model::default().scaled(value as u32, acceleration);
        scaled.ok().map(|motion| motion as i16)
    };
    for (value, acceleration, motion) in [
        (-19, 1, -1),
        (19, 1, 1),
        (-9, 1, 0),
        (3, 15, 4),
        (-3, 15, -4),
        (5, 10, 5),
    ] {
        assert_eq!(scaled(value, acceleration), Some(motion));
    }
}

#[test]
fn both_sides_of_the_limits_of_motion() {
    let scaled = |value: i32, acceleration| Model::default().scaled(value as u32, acceleration);
    for (value, acceleration, motion) in [
        (16383, 20, 32766),
        (-16384, 20, -32768),
        (327_679, 1, 32767),
        (-327_689, 1, -32768),
        (32767, 10, 32767),
        (-32768, 10, -32768),
    ] {
        assert_eq!(scaled(value, acceleration), Ok(motion as u16));
    }
    for (value, acceleration) in [
        (16384, 20),
        (-16385, 20),
        (327_680, 1),
        (-327_690, 1),
        (32768, 10),
        (i32::MAX, 20),
        (i32::MIN, 20),
    ] {
        assert_eq!(scaled(value, acceleration), Err(NOT_OFFERED));
    }
}

#[test]
fn a_missing_motion_is_0_and_a_missing_place_as_before() {
    assert_eq!(records(&[rel(REL_X, -1)]), [record(RELATIVE, 0x0000_FFFF)]);
    assert_eq!(records(&[rel(REL_Y, -2)]), [record(RELATIVE, 0xFFFE_0000)]);
    assert_eq!(records(&[abs(ABS_X, 65535)]), [record(ABSOLUTE, 0x0008_FFFF)]);
    assert_eq!(records(&[abs(ABS_Y, 0)]), [record(ABSOLUTE, 7)]);
    let after = |events: &[Event]| group(10, events).expect("events with a form").position;
    assert_eq!(after(&[abs(ABS_X, 65535)]), Position { x: 65535, y: 8 });
    assert_eq!(after(&[rel(REL_X, 3)]), LAST);
}

#[test]
fn records_have_an_order_of_their_own() {
    let press = |code, value| Event::new(EV_KEY, code, value);
    let mixed = [
        rel(REL_WHEEL, -1),
        press(BTN_RIGHT, 2),
        abs(ABS_Y, 5),
        press(BTN_LEFT, 0),
        rel(REL_Y, 3),
        press(BTN_RIGHT, 0),
        press(BTN_MIDDLE, 1),
    ];
    let expected = [
        record(RELATIVE, 3 << 16),
        record(ABSOLUTE, 5 << 16 | 7),
        record(RIGHT_BUTTON_DOWN, 0),
        record(LEFT_BUTTON_UP, 0),
        record(RIGHT_BUTTON_UP, 0),
        record(MIDDLE_BUTTON_DOWN, 0),
        record(VWHEEL, u32::MAX),
    ];
    assert_eq!(records(&mixed), expected);
}

#[test]
fn the_wheel_is_not_scaled() {
    let wheel = group(20, &[rel(REL_WHEEL, i32::MIN)]).expect("a wheel").records;
    assert_eq!(wheel, [record(VWHEEL, 1 << 31), record(FENCE, 0)]);
}

#[test]
fn what_has_no_form() {
    let other = [
        rel(REL_HWHEEL, 1),
        abs(2, 1),
        abs(ABS_X, 65536),
        rel(REL_X, 32768),
        Event::new(EV_KEY, 0x113, 1),
        Event::new(0, 2, 0),
    ];
    for event in other {
        assert_eq!(group(10, &[event]), Err(NOT_OFFERED), "{event:?}");
    }
    for (kind, code) in SINGLE {
        assert_eq!(group(10, &[Event::new(kind, code, 1); 2]), Err(NOT_OFFERED));
    }
    assert_eq!(records(&[Event::new(EV_KEY, BTN_LEFT, 1); 32]).len(), 32);
}
