//! The example stream of the XENMOU2 page, sent by the device and heard by the driver.

use thayarqo_model::access::{CLIENT_REV, CONTROL};
use thayarqo_model::answer::{DONE, NOTHING_TO_READ};
use thayarqo_model::device::Device;
use thayarqo_model::driver::{Driver, Told};
use thayarqo_model::geometry::{Geometry, PAGE};
use thayarqo_model::packet::{bytes_of, events_of, PACKET};
use thayarqo_model::records::{Event, EV_ABS, EV_KEY};
use thayarqo_model::Model;

const GEOMETRY: Geometry = Geometry {
    pages: 1,
    record_size: 8,
    entry_size: 72,
};

const ABS_X: u16 = 0;
const ABS_Y: u16 = 1;
const ABS_PRESSURE: u16 = 0x18;
const MT_SLOT: u16 = 0x2F;
const MT_X: u16 = 0x35;
const MT_Y: u16 = 0x36;
const MT_ID: u16 = 0x39;
const BTN_TOOL_PEN: u16 = 0x140;
const BTN_TOUCH: u16 = 0x14A;

const fn axis(code: u16, value: u32) -> Event {
    Event::new(EV_ABS, code, value)
}

const fn button(code: u16, value: u32) -> Event {
    Event::new(EV_KEY, code, value)
}

const PEN: [&[Event]; 8] = [
    &[axis(ABS_X, 345), axis(ABS_Y, 987), button(BTN_TOOL_PEN, 1)],
    &[axis(ABS_X, 346)],
    &[axis(ABS_Y, 986)],
    &[
        axis(ABS_X, 344),
        axis(ABS_Y, 985),
        axis(ABS_PRESSURE, 45),
        button(BTN_TOUCH, 1),
    ],
    &[axis(ABS_PRESSURE, 48)],
    &[axis(ABS_X, 300), axis(ABS_PRESSURE, 20)],
    &[button(BTN_TOUCH, 0), axis(ABS_X, 388)],
    &[axis(ABS_Y, 810), axis(ABS_X, 320), button(BTN_TOOL_PEN, 0)],
];

const FINGERS: [&[Event]; 9] = [
    &[axis(MT_SLOT, 0), axis(MT_ID, 45), axis(MT_X, 200), axis(MT_Y, 300)],
    &[axis(MT_X, 210)],
    &[axis(MT_X, 220), axis(MT_Y, 302)],
    &[
        axis(MT_X, 225),
        axis(MT_SLOT, 1),
        axis(MT_ID, 46),
        axis(MT_X, 700),
        axis(MT_Y, 800),
    ],
    &[
        axis(MT_SLOT, 0),
        axis(MT_X, 226),
        axis(MT_Y, 308),
        axis(MT_SLOT, 1),
        axis(MT_Y, 810),
    ],
    &[axis(MT_Y, 815), axis(MT_X, 720)],
    &[
        axis(MT_SLOT, 0),
        axis(MT_ID, u32::MAX),
        axis(MT_SLOT, 1),
        axis(MT_X, 725),
    ],
    &[axis(MT_Y, 816), axis(MT_X, 740)],
    &[axis(MT_ID, u32::MAX), axis(MT_X, 741)],
];

struct Machine {
    device: Device,
    driver: Driver,
    area: [u8; PAGE],
    page: [u8; PAGE],
    packet: [u8; PACKET],
}

impl Machine {
    /// On, with a stylus in slot 4 and a touch panel in slot 7.
    fn switched_on() -> Machine {
        let mut machine = Machine {
            device: Device::fresh(),
            driver: Driver::fresh(),
            area: [0; PAGE],
            page: [0; PAGE],
            packet: [0; PACKET],
        };
        let mut entry = [0; 72];
        entry[40..72].fill(0xFF);
        let Machine { device, area, page, .. } = &mut machine;
        let model = Model::default();
        for slot in [4, 7] {
            assert_eq!(model.add(device, GEOMETRY, area, page, slot, &entry), DONE);
        }
        for (offset, value) in [(CLIENT_REV, 2), (CONTROL, 3)] {
            assert_eq!(model.write(device, GEOMETRY, area, page, offset, 4, value), DONE);
        }
        machine
    }

    fn send(&mut self, slot: u32, events: &[Event]) {
        let Machine { device, area, page, .. } = self;
        let answer = Model::default().put_packet(device, GEOMETRY, area, page, slot, &bytes_of(events));
        assert_eq!(answer, DONE);
    }

    /// All that the driver tells until there is nothing to read; packets with their events.
    fn hear(&mut self) -> Vec<(Told, Vec<Event>)> {
        let mut heard = Vec::new();
        loop {
            let told = Model::default().step(&mut self.driver, GEOMETRY, &mut self.area, &mut self.packet);
            let mut events = events_of(&self.packet);
            match told {
                Told::Refused(NOTHING_TO_READ) => return heard,
                Told::Nothing => continue,
                Told::Packet { count, .. } => events.truncate(count as usize),
                _ => events.clear(),
            }
            heard.push((told, events));
        }
    }
}

#[test]
fn the_driver_hears_what_the_device_sent() {
    let mut machine = Machine::switched_on();
    for (slot, packets) in [(4, &PEN[..]), (7, &FINGERS[..])] {
        for events in packets {
            machine.send(slot, events);
        }
    }
    let mut expected = vec![
        (Told::ResetAll, vec![]),
        (Told::Conf(4), vec![]),
        (Told::Conf(7), vec![]),
    ];
    for (slot, packets) in [(4, &PEN[..]), (7, &FINGERS[..])] {
        expected.push((Told::Set(slot), vec![]));
        for events in packets {
            let count = events.len() as u32;
            expected.push((Told::Packet { slot, count }, events.to_vec()));
        }
    }
    assert_eq!(machine.hear(), expected);
    assert!(machine.device.isr);
}
