//! A guest of revision 1, from the switch-on: what it receives is the groups up to their FENCE.

use thayarqo_model::access::{ACCELERATION, CONTROL};
use thayarqo_model::answer::{DONE, NOTHING_TO_READ, NOT_OFFERED, NO_ROOM};
use thayarqo_model::device::Device;
use thayarqo_model::geometry::{Geometry, PAGE};
use thayarqo_model::packet::bytes_of;
use thayarqo_model::records::{Event, EV_ABS, EV_KEY, EV_REL};
use thayarqo_model::revision1::*;
use thayarqo_model::Model;

const GEOMETRY: Geometry = Geometry {
    pages: 1,
    record_size: 64,
    entry_size: 68,
};

/// Flags and data of a record.
type Record = (u16, u32);

struct Machine {
    device: Device,
    area: [u8; PAGE],
    page: [u8; PAGE],
}

impl Machine {
    /// On, with all that can be offered in slot 4. The guest never writes CLIENT_REV.
    fn switched_on() -> Machine {
        let mut machine = Machine {
            device: Device::fresh(),
            area: [0; PAGE],
            page: [0; PAGE],
        };
        let Machine { device, area, page } = &mut machine;
        assert_eq!(Model::default().add(device, GEOMETRY, area, page, 4, &[0xFF; 68]), DONE);
        machine.write(CONTROL, 1);
        machine
    }

    fn write(&mut self, offset: u64, value: u32) {
        let Machine { device, area, page } = self;
        let answer = Model::default().write(device, GEOMETRY, area, page, offset, 4, value);
        assert_eq!(answer, DONE);
    }

    fn send(&mut self, events: &[Event]) -> u8 {
        let Machine { device, area, page } = self;
        Model::default().put_packet(device, GEOMETRY, area, page, 4, &bytes_of(events))
    }

    /// The groups that are read until there is nothing to read.
    fn receive(&mut self) -> Vec<Vec<Record>> {
        let mut groups = Vec::new();
        let mut begun = Vec::new();
        loop {
            let taken = Model::default().revision1_step(GEOMETRY, &mut self.area);
            if taken.answer != DONE {
                assert_eq!((taken.answer, begun.len()), (NOTHING_TO_READ, 0));
                return groups;
            }
            assert_eq!(taken.revision, 1);
            begun.push((taken.flags, taken.data));
            if taken.flags & FENCE != 0 {
                groups.push(std::mem::take(&mut begun));
            }
        }
    }
}

const fn motion(code: u16, value: i32) -> Event {
    Event::new(EV_REL, code, value as u32)
}

const fn place(code: u16, value: u32) -> Event {
    Event::new(EV_ABS, code, value)
}

const FENCED: Record = (FENCE, 0);

#[test]
fn groups_are_scaled_by_the_acceleration_in_force() {
    let mut machine = Machine::switched_on();
    assert!(machine.receive().is_empty());
    assert_eq!(machine.send(&[motion(REL_X, -19), motion(REL_WHEEL, 2)]), DONE);
    machine.write(ACCELERATION, 1);
    assert_eq!(machine.send(&[motion(REL_X, -19), motion(REL_WHEEL, 2)]), DONE);
    machine.write(ACCELERATION, 20);
    assert_eq!(machine.send(&[motion(REL_Y, 16384)]), NOT_OFFERED);
    assert_eq!(machine.send(&[motion(REL_Y, -16384)]), DONE);
    let expected = [
        vec![(RELATIVE, 0xFFED), (VWHEEL, 2), FENCED],
        vec![(RELATIVE, 0xFFFF), (VWHEEL, 2), FENCED],
        vec![(RELATIVE, 0x8000_0000), FENCED],
    ];
    assert_eq!(machine.receive(), expected);
}

#[test]
fn a_missing_coordinate_is_as_last_put_since_switch_on() {
    let mut machine = Machine::switched_on();
    assert_eq!(machine.send(&[place(ABS_Y, 9)]), DONE);
    assert_eq!(machine.send(&[place(ABS_X, 65536)]), NOT_OFFERED);
    assert_eq!(machine.send(&[place(ABS_X, 3)]), DONE);
    machine.write(CONTROL, 0);
    machine.write(CONTROL, 1);
    assert_eq!(machine.send(&[place(ABS_X, 5)]), DONE);
    assert_eq!(machine.receive(), [vec![(ABSOLUTE, 5), FENCED]]);
}

#[test]
fn what_is_refused_for_room_leaves_no_trace() {
    let mut machine = Machine::switched_on();
    let presses = [Event::new(EV_KEY, BTN_LEFT, 1); 32];
    assert_eq!(machine.send(&presses), DONE);
    assert_eq!(machine.send(&presses), NO_ROOM);
    assert_eq!(machine.send(&[place(ABS_X, 1), place(ABS_Y, 2)]), DONE);
    let groups = machine.receive();
    assert_eq!(groups[0].len(), 33);
    assert_eq!(groups[1..], [vec![(ABSOLUTE, 2 << 16 | 1), FENCED]]);
}
