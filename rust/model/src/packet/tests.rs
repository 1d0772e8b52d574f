//! Packets that are put, and packets that are refused.

use super::*;
use crate::bytes::put_word;
use crate::geometry::PAGE;
use crate::records::EV_REL;

const GEOMETRY: Geometry = Geometry {
    pages: 1,
    record_size: 64,
    entry_size: 68,
};
const MOVE: Event = Event::new(EV_REL, 0, 1);

/// A device that is on with slot 4, w at 2, and its pages.
fn switched_on() -> (Device, [u8; PAGE], [u8; PAGE]) {
    let device = Device {
        on: true,
        client_rev_written: true,
        client_rev: 2,
        write_index: 2,
        taken: 1 << 4,
        ..Device::fresh()
    };
    let mut page = [0; PAGE];
    put_word(&mut page, 4 * 68 + 40, 0b101);
    (device, [0; PAGE], page)
}

fn put(device: &mut Device, area: &mut [u8], page: &[u8], packet: &[u8]) -> u8 {
    Model::default().put_packet(device, GEOMETRY, area, page, 4, packet)
}

#[test]
fn write_index_after_the_packets_of_the_paper() {
    let (mut device, mut area, page) = switched_on();
    let mut put = |events: &[Event]| {
        let answer = put(&mut device, &mut area, &page, &bytes_of(events));
        (answer, device.write_index)
    };
    assert_eq!(put(&[MOVE, MOVE]), (DONE, 6));
    assert_eq!(put(&[MOVE]), (DONE, 8));
    assert_eq!(put(&[]), (MALFORMED, 8));
    assert_eq!(put(&[MOVE; 33]), (MALFORMED, 8));
    assert_eq!(put(&[Event::new(EV_REL, 32, 1)]), (NOT_OFFERED, 8));
}

#[test]
fn half_an_event_is_refused_before_all_else() {
    let (mut device, mut area, page) = switched_on();
    for length in [1, 7, 12, 255, 263] {
        assert_eq!(put(&mut device, &mut area, &page, &vec![0; length]), INVALID);
    }
    device.on = false;
    assert_eq!(put(&mut device, &mut area, &page, &[0; 12]), INVALID);
    assert_eq!(put(&mut device, &mut area, &page, &[0; 264]), DEVICE_OFF);
}

#[test]
fn events_come_back_from_their_bytes() {
    let events = [MOVE, Event::new(0x0102, 0x0304, 0x0506_0708)];
    let bytes = bytes_of(&events);
    assert_eq!(bytes[8..], [2, 1, 4, 3, 8, 7, 6, 5]);
    assert_eq!(events_of(&bytes), events);
}

#[test]
fn at_60_unread_one_event_fits_and_two_do_not() {
    let (mut device, mut area, page) = switched_on();
    (device.write_index, device.current_slot) = (60, 4);
    let mut other = device;
    let refused = area;
    assert_eq!(put(&mut other, &mut area, &page, &bytes_of(&[MOVE, MOVE])), NO_ROOM);
    assert_eq!(other, Device { lost: true, ..device });
    assert_eq!(area, refused);
    assert_eq!(put(&mut device, &mut area, &page, &bytes_of(&[MOVE])), DONE);
}

#[test]
fn what_was_lost_is_told_before_the_slot() {
    let (mut device, mut area, page) = switched_on();
    device.lost = true;
    device.interrupts = true;
    put(&mut device, &mut area, &page, &bytes_of(&[MOVE]));
    let kinds: Vec<_> = (2..7)
        .map(|index| Event::read(&area, GEOMETRY.record_at(index)))
        .collect();
    assert_eq!(kinds[0], Event::new(EV_SYN, SYN_DROPPED, 0));
    assert_eq!(kinds[1], Event::new(EV_SYN, SYN_REPORT, 0));
    assert_eq!(kinds[2], Event::new(EV_DEV, DEV_SET, 4));
    assert_eq!(kinds[3], MOVE);
    assert_eq!(kinds[4], kinds[1]);
    assert!(!device.lost && device.isr && device.write_index == 7);
}

/// The same for a guest of revision 1 that has asked for interrupts.
fn switched_on_in_revision1() -> (Device, [u8; PAGE], [u8; PAGE]) {
    let (device, area, page) = switched_on();
    let device = Device {
        client_rev_written: false,
        client_rev: 0,
        acceleration: 20,
        interrupts: true,
        ..device
    };
    (device, area, page)
}

#[test]
fn revision_1_is_told_neither_slot_nor_gap() {
    let (mut device, mut area, page) = switched_on_in_revision1();
    device.lost = true;
    let before = device;
    assert_eq!(put(&mut device, &mut area, &page, &bytes_of(&[MOVE])), DONE);
    let after = Device {
        isr: true,
        write_index: 4,
        ..before
    };
    assert_eq!(device, after);
    let record = |index| Event::read(&area, GEOMETRY.record_at(index));
    assert_eq!((record(2), record(3)), (Event::new(2, 1, 2), Event::new(4, 1, 0)));
}

#[test]
fn in_revision_1_a_form_is_asked_for_before_room() {
    let (mut device, mut area, page) = switched_on_in_revision1();
    let two = bytes_of(&[MOVE, MOVE]);
    put_word(&mut area, READ_POINTER, 63);
    let before = device;
    assert_eq!(put(&mut device, &mut area, &page, &two), NOT_OFFERED);
    assert_eq!(put(&mut device, &mut area, &page, &bytes_of(&[])), MALFORMED);
    assert_eq!(device, before);
    assert_eq!(put(&mut device, &mut area, &page, &bytes_of(&[MOVE])), BAD_INDEX);
    assert_eq!(device, Device { lost: true, ..before });
}

#[test]
fn in_revision_1_the_fence_needs_its_room() {
    let (mut device, mut area, page) = switched_on_in_revision1();
    let mut put_at = |write_index| {
        device.write_index = write_index;
        put(&mut device, &mut area, &page, &bytes_of(&[MOVE]))
    };
    assert_eq!((put_at(60), put_at(61)), (DONE, NO_ROOM));
}
