//! A device and a driver of revision 1 that interrupt each other.
use super::{interrupt, run, shared_words, Interrupted};
use crate::codes::{BTN_LEFT, REL_WHEEL};
use crate::live::{LiveDevice, LiveRevision1Driver};
use crate::register::{CONTROL, CONTROL_ON, READ_PTR};
use crate::{Answer, Entry, Event, Geometry, Packet, Refusal, Revision1Event, PAGE_LENGTH};
use std::cell::RefCell;
use std::rc::Rc;

const SLOT: u32 = 4;

struct Host {
    device: LiveDevice<'static>,
    number: i32,
    refused: u32,
    sent: Vec<i32>,
}

impl Host {
    fn switch_on(&mut self) {
        self.device.write(CONTROL, 4, 0).expect("off");
        self.device.write(CONTROL, 4, CONTROL_ON).expect("on");
    }

    /// The wheel carries a number of 32 bits as it is.
    fn put(&mut self) {
        let number = self.number;
        self.number += 1;
        let events = [Event::rel(REL_WHEEL, number), Event::key(BTN_LEFT, number % 2 == 1)];
        match self.device.put_packet(&Packet::new(SLOT, &events).expect("two events")) {
            Ok(()) => self.sent.push(number),
            Err(refusal) => {
                assert_eq!(refusal, Refusal::NoRoom);
                self.refused += 1;
            }
        }
    }
}

struct Guest {
    driver: LiveRevision1Driver<'static>,
    received: Vec<i32>,
}

impl Guest {
    fn receive(&mut self) {
        match self.driver.receive() {
            Ok(Some(group)) => {
                let events: Vec<_> = group.events().collect();
                let [Revision1Event::Button { code, pressed }, Revision1Event::VWheel(number)] = events[..] else {
                    panic!("{group}");
                };
                assert_eq!((code, pressed), (BTN_LEFT, number % 2 == 1));
                self.received.push(number);
            }
            Ok(None) => {}
            Err(refusal) => assert_eq!(refusal, Refusal::NothingToRead),
        }
    }

    fn read_all(&mut self) {
        for _ in 0..64 {
            self.receive();
        }
        assert_eq!(self.driver.step(), Err(Refusal::NothingToRead));
    }
}

fn both_ends() -> Answer<(Host, Guest)> {
    let geometry = Geometry::new(1, 64, 256)?;
    let (area, page) = (shared_words(geometry.area_length()), shared_words(PAGE_LENGTH));
    let mut host = Host {
        device: LiveDevice::new(geometry, area, page)?,
        number: 0,
        refused: 0,
        sent: Vec::new(),
    };
    host.device
        .add(SLOT, &Entry::new("mouse").offer_rel().offer_key(BTN_LEFT)?)?;
    host.switch_on();
    let guest = Guest {
        driver: LiveRevision1Driver::new(geometry, area)?,
        received: Vec::new(),
    };
    Ok((host, guest))
}

fn deliver(which: Interrupted) -> Answer<()> {
    let (host, guest) = both_ends()?;
    let (host, mut guest) = run(host, Host::put, guest, Guest::receive, which);
    guest.read_all();
    assert!(host.refused > 100 && host.sent.len() > 1000);
    assert_eq!(guest.received, host.sent);
    Ok(())
}

#[test]
fn groups_are_delivered_by_an_interrupted_host() -> Answer<()> {
    deliver(Interrupted::Writer)
}

#[test]
fn groups_are_delivered_to_an_interrupted_guest() -> Answer<()> {
    deliver(Interrupted::Reader)
}

/// Both ends with packets that wait, and READ_PTR moved on by so many records.
fn waiting(read: u32) -> Answer<(Host, Guest)> {
    let (mut host, mut guest) = both_ends()?;
    (0..3).for_each(|_| host.put());
    (0..read).for_each(|_| guest.receive());
    Ok((host, guest))
}

/// After a restart the ring is empty and open, and a guest that has rested meanwhile receives what is put from then on.
fn check_restarted(host: &mut Host, guest: &mut Guest) {
    guest.driver.restart();
    assert_eq!(guest.driver.step(), Err(Refusal::NothingToRead));
    guest.received.clear();
    host.put();
    guest.read_all();
    assert_eq!(guest.received, [host.number - 1]);
}

/// No first record is put, and WRITE_PTR is in place all the same. Before each access of the switch-on, the guest tries to read.
#[test]
fn a_restart_by_an_interrupted_host_is_whole() -> Answer<()> {
    let mut answers = Vec::new();
    for access in 1..=4 {
        let (mut host, guest) = waiting(1)?;
        host.device.write(CONTROL, 4, 0)?;
        let guest = Rc::new(RefCell::new((guest, None)));
        let reading = guest.clone();
        let step = move || {
            let (guest, answer) = &mut *reading.borrow_mut();
            *answer = Some(guest.driver.step().map(|record| record.to_string()));
        };
        interrupt(access, || host.device.write(CONTROL, 4, CONTROL_ON), step)?;
        let (mut guest, answer) = Rc::into_inner(guest).expect("the closure is gone").into_inner();
        answers.push(answer.expect("so many accesses"));
        check_restarted(&mut host, &mut guest);
    }
    let old = Ok("VWHEEL 0".to_string());
    let closed = Err(Refusal::BadIndex);
    assert_eq!(answers, [old.clone(), old, closed.clone(), closed]);
    Ok(())
}

/// Makes a step of the guest, and a restart before that access of it.
fn restart_within(read: u32, access: u32) -> Answer<(Host, Guest, Answer<String>)> {
    let (host, mut guest) = waiting(read)?;
    let host = Rc::new(RefCell::new(host));
    let restarting = host.clone();
    let answer = interrupt(
        access,
        || guest.driver.step(),
        move || restarting.borrow_mut().switch_on(),
    );
    let host = Rc::into_inner(host).expect("the closure is gone").into_inner();
    Ok((host, guest, answer.map(|record| record.to_string())))
}

/// Where READ_PTR isn't 0, a step consumes nothing of the new start.
#[test]
fn a_restart_under_an_interrupted_guest_is_whole() -> Answer<()> {
    for access in 1..=7 {
        let (mut host, mut guest, answer) = restart_within(1, access)?;
        let expected = match access {
            1 => Err(Refusal::NothingToRead),
            2..=6 => Err(Refusal::BadIndex),
            _ => Ok("VWHEEL 0".to_string()),
        };
        assert_eq!(answer, expected, "at access {access}");
        assert_eq!(host.device.read(READ_PTR, 4), Ok(0));
        check_restarted(&mut host, &mut guest);
    }
    Ok(())
}

/// What the documentation warns of: from READ_PTR 0 the guest reads an old record past the new WRITE_PTR, and doesn't notice it.
#[test]
fn a_restart_at_rest_mends_an_unnoticed_one() -> Answer<()> {
    // Both pointers are loaded by then.
    let (mut host, mut guest, answer) = restart_within(0, 3)?;
    assert_eq!(answer, Ok("LEFT_BUTTON_UP".to_string()));
    assert_eq!(host.device.read(READ_PTR, 4), Ok(1));
    assert_eq!(host.device.device().write_index(), 0);
    let refused = host.refused;
    host.put();
    assert_eq!(host.refused, refused + 1);

    host.switch_on();
    check_restarted(&mut host, &mut guest);
    Ok(())
}
