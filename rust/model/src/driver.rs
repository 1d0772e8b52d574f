//! The guest's driver: what each record does to its state.

use crate::answer::{DONE, INVALID, MALFORMED};
use crate::bytes::put_word;
use crate::device::NO_SLOT;
use crate::geometry::Geometry;
use crate::packet::{MOST_EVENTS, PACKET};
use crate::records::{
    unread_pointers, Event, ALL_SLOTS, DEV_CONF, DEV_RESET, DEV_SET, EV_DEV, EV_SYN, KNOWN_RECORD, READ_POINTER,
    SYN_DROPPED, SYN_REPORT,
};
use crate::{Fault, Model};

/// Events come from an unknown source.
pub const UNKNOWN_SLOT: u32 = 0xFFFF_FFFF;

#[derive(Clone, Copy, Debug, PartialEq, Eq)]
pub struct Driver {
    pub slot: u32,
    /// How many events have joined the packet that is begun.
    pub held: u32,
    pub overlong: bool,
    pub spoiled: bool,
    /// From SYN_DROPPED to the next SYN_REPORT.
    pub ignoring: bool,
}

/// What a step tells. A packet's events are the first `count` of the lent buffer.
#[derive(Clone, Copy, Debug, PartialEq, Eq)]
pub enum Told {
    Refused(u8),
    Nothing,
    Gap,
    EmptyReport,
    Packet { slot: u32, count: u32 },
    Set(u32),
    Conf(u32),
    Reset(u32),
    ResetAll,
}

impl Driver {
    pub fn fresh() -> Driver {
        Driver {
            slot: NO_SLOT,
            held: 0,
            overlong: false,
            spoiled: false,
            ignoring: false,
        }
    }

    /// At most 32 events held, and a slot that is none, unknown or in range.
    pub fn is_sound(&self, geometry: Geometry) -> bool {
        let slot_is_known = self.slot == NO_SLOT || self.slot == UNKNOWN_SLOT || self.slot < geometry.slots();
        self.held as usize <= MOST_EVENTS && slot_is_known
    }

    /// Only a packet that is begun can be spoiled.
    fn spoil(&mut self) {
        self.spoiled |= self.held > 0;
    }

    fn discard(&mut self) {
        self.held = 0;
        self.overlong = false;
        self.spoiled = false;
    }

    /// The event stands behind those that joined before it.
    fn join(&mut self, event: Event, packet: &mut [u8]) -> Told {
        if self.ignoring {
            return Told::Nothing;
        }
        if self.held as usize == MOST_EVENTS {
            self.overlong = true;
        } else {
            event.put(packet, self.held as usize * KNOWN_RECORD);
            self.held += 1;
        }
        Told::Nothing
    }

    fn report(&mut self) -> Told {
        let told = if self.ignoring {
            Told::Gap
        } else if self.spoiled || self.overlong {
            Told::Refused(MALFORMED)
        } else if self.held == 0 {
            Told::EmptyReport
        } else {
            Told::Packet {
                slot: self.slot,
                count: self.held,
            }
        };
        self.ignoring = false;
        self.discard();
        told
    }

    fn drop_events(&mut self) -> Told {
        self.discard();
        self.ignoring = true;
        Told::Nothing
    }

    fn set(&mut self, value: u32, slots: u32) -> Told {
        self.spoil();
        if value == UNKNOWN_SLOT || value < slots {
            self.slot = value;
            Told::Set(value)
        } else {
            self.slot = NO_SLOT;
            Told::Refused(MALFORMED)
        }
    }

    fn reset(&mut self, value: u32, slots: u32, all: u32) -> Told {
        if value != all && value >= slots {
            return Told::Refused(MALFORMED);
        }
        if value == all || value == self.slot {
            self.spoil();
            self.slot = NO_SLOT;
        }
        if value == all {
            Told::ResetAll
        } else {
            Told::Reset(value)
        }
    }
}

impl Model {
    /// One record; the events of the packet that is begun are kept in a lent buffer. Refusals in order: 1, 10, 11; a malformed
    /// record is consumed and answers 9.
    pub fn step(self, driver: &mut Driver, geometry: Geometry, area: &mut [u8], packet: &mut [u8]) -> Told {
        if !geometry.is_allowed() || area.len() != geometry.area_length() || packet.len() != PACKET {
            return Told::Refused(INVALID);
        }
        if !driver.is_sound(geometry) {
            return Told::Refused(INVALID);
        }
        let (read, _) = match unread_pointers(geometry, area) {
            Ok(pointers) => pointers,
            Err(answer) => return Told::Refused(answer),
        };
        let record = Event::read(area, geometry.record_at(read));
        let told = self.receive(driver, record, geometry.slots(), packet);
        if told.answer() == DONE || !self.has(Fault::MalformedRecordKept) {
            put_word(area, READ_POINTER, (read + 1) % geometry.ring_length());
        }
        told
    }

    fn receive(self, driver: &mut Driver, record: Event, slots: u32, packet: &mut [u8]) -> Told {
        let all = match self.has(Fault::ResetAllAsMinusOne) {
            true => u32::MAX,
            false => ALL_SLOTS,
        };
        driver.spoiled &= !self.has(Fault::SpoiledPacketTold);
        driver.overlong &= !self.has(Fault::OverlongPacketTold);
        match (record.kind, record.code) {
            (EV_SYN, SYN_REPORT) => driver.report(),
            (EV_SYN, SYN_DROPPED) => driver.drop_events(),
            (EV_DEV, DEV_SET) => driver.set(record.value, slots),
            (EV_DEV, DEV_CONF) if record.value < slots => Told::Conf(record.value),
            (EV_DEV, DEV_RESET) => driver.reset(record.value, slots, all),
            (EV_DEV, _) => Told::Refused(MALFORMED),
            _ => driver.join(record, packet),
        }
    }
}

impl Told {
    /// The number of the papers.
    pub fn answer(self) -> u8 {
        match self {
            Told::Refused(answer) => answer,
            _ => DONE,
        }
    }
}

#[cfg(test)]
mod tests {
    use super::*;
    use crate::answer::NOTHING_TO_READ;

    const SLOTS: u32 = 16;
    const REPORT: Event = Event::new(EV_SYN, SYN_REPORT, 0);
    const DROPPED: Event = Event::new(EV_SYN, SYN_DROPPED, 0);
    const MOVE: Event = Event::new(2, 0, 1);
    const BAD: Told = Told::Refused(MALFORMED);

    fn set(slot: u32) -> Event {
        Event::new(EV_DEV, DEV_SET, slot)
    }

    fn reset(slot: u32) -> Event {
        Event::new(EV_DEV, DEV_RESET, slot)
    }

    /// What a fresh driver tells of each record, and its slot at the end.
    fn told(records: &[Event]) -> (Vec<Told>, u32) {
        let mut driver = Driver::fresh();
        let mut packet = [0; PACKET];
        let told = records
            .iter()
            .map(|&record| Model::default().receive(&mut driver, record, SLOTS, &mut packet))
            .collect();
        (told, driver.slot)
    }

    fn last(records: &[Event]) -> Told {
        *told(records).0.last().expect("a record")
    }

    #[test]
    fn a_packet_an_empty_report_a_gap() {
        let packet = Told::Packet { slot: 4, count: 2 };
        assert_eq!(last(&[set(4), MOVE, MOVE, REPORT]), packet);
        assert_eq!(last(&[REPORT]), Told::EmptyReport);
        assert_eq!(last(&[MOVE, DROPPED, MOVE, REPORT]), Told::Gap);
        assert_eq!(last(&[DROPPED, set(4), REPORT, MOVE, MOVE, REPORT]), packet);
    }

    #[test]
    fn what_spoils_a_packet() {
        for spoiler in [set(4), set(5), set(16), reset(4), reset(0xFFFF)] {
            assert_eq!(last(&[set(4), MOVE, spoiler, REPORT]), BAD);
        }
        for harmless in [reset(5), reset(16), Event::new(EV_DEV, DEV_CONF, 4)] {
            assert_ne!(last(&[set(4), MOVE, harmless, REPORT]), BAD);
        }
        assert_eq!(last(&[MOVE, set(4), REPORT, REPORT]), Told::EmptyReport);
    }

    #[test]
    fn values_of_device_records() {
        assert_eq!(told(&[set(15)]), (vec![Told::Set(15)], 15));
        assert_eq!(told(&[set(4), set(16)]).1, NO_SLOT);
        assert_eq!(told(&[set(u32::MAX)]).1, UNKNOWN_SLOT);
        assert_eq!(told(&[set(0xFFFF)]), (vec![BAD], NO_SLOT));
        assert_eq!(last(&[reset(0xFFFF)]), Told::ResetAll);
        assert_eq!(told(&[set(4), reset(u32::MAX)]).1, 4);
        assert_eq!(told(&[set(u32::MAX), reset(4)]).1, UNKNOWN_SLOT);
        assert_eq!(last(&[Event::new(EV_DEV, DEV_CONF, 16)]), BAD);
        assert_eq!(last(&[Event::new(EV_DEV, 4, 0)]), BAD);
    }

    #[test]
    fn thirty_two_events_are_a_packet_and_one_more_is_not() {
        let most = [&[MOVE; 32][..], &[REPORT]].concat();
        let over = [&[MOVE; 33][..], &[REPORT]].concat();
        let packet = Told::Packet {
            slot: NO_SLOT,
            count: 32,
        };
        assert_eq!(last(&most), packet);
        assert_eq!(last(&over), BAD);
    }

    #[test]
    fn an_event_that_joins_changes_its_own_bytes() {
        let mut packet = [0xEE; PACKET];
        let mut driver = Driver {
            held: 31,
            ..Driver::fresh()
        };
        for record in [MOVE, MOVE, set(4), DROPPED, MOVE, REPORT] {
            Model::default().receive(&mut driver, record, SLOTS, &mut packet);
        }
        assert_eq!(packet[248..], [2, 0, 0, 0, 1, 0, 0, 0]);
        assert!(packet[..248].iter().all(|&byte| byte == 0xEE));
    }

    #[test]
    fn a_buffer_of_another_length_is_refused() {
        let geometry = Geometry {
            pages: 1,
            record_size: 8,
            entry_size: 256,
        };
        for (length, answer) in [(255, INVALID), (256, NOTHING_TO_READ), (264, INVALID), (0, INVALID)] {
            let told = Model::default().step(&mut Driver::fresh(), geometry, &mut [0; 4096], &mut vec![0; length]);
            assert_eq!(told, Told::Refused(answer));
        }
    }
}
