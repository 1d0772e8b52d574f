//! A device and a driver that interrupt each other.
use super::{interleave, interrupt, run, shared_words, Interrupted};
use crate::codes::REL_X;
use crate::live::{LiveDevice, LiveDriver};
use crate::register::{CLIENT_REV, CONTROL, CONTROL_ON, READ_PTR, REV};
use crate::{Answer, Entry, Event, Geometry, Packet, Refusal, Told, PAGE_LENGTH};
use std::cell::RefCell;
use std::rc::Rc;

const SLOT: u32 = 4;

/// What a log tells: a new start, a gap, or a packet by its number.
#[derive(Debug, PartialEq)]
enum Item {
    Start,
    Gap,
    Packet(u32),
}

struct Host {
    device: LiveDevice<'static>,
    number: u32,
    lost: bool,
    sent: Vec<Item>,
}

impl Host {
    fn switch_on(&mut self) {
        self.device.write(CONTROL, 4, 0).expect("off");
        self.device.write(CONTROL, 4, CONTROL_ON).expect("on");
        self.sent.push(Item::Start);
        self.lost = false;
    }

    fn put(&mut self) {
        let number = self.number;
        self.number += 1;
        let event = Event::rel(REL_X, number as i32);
        let packet = Packet::new(SLOT, &[event, event]).expect("two events");
        match self.device.put_packet(&packet) {
            Ok(()) => {
                if std::mem::take(&mut self.lost) {
                    self.sent.push(Item::Gap);
                }
                self.sent.push(Item::Packet(number));
            }
            Err(refusal) => {
                assert_eq!(refusal, Refusal::NoRoom);
                self.lost = true;
            }
        }
    }

    /// So few packets between two starts that the ring doesn't come round.
    fn put_or_restart(&mut self) {
        if self.number % 16 == 15 {
            self.number += 1;
            self.switch_on();
        } else {
            self.put();
        }
    }
}

struct Guest {
    driver: LiveDriver<'static>,
    received: Vec<Item>,
}

impl Guest {
    fn step(&mut self) {
        match self.driver.step() {
            Ok(Told::ResetAll) => {
                self.driver.restart();
                self.received.push(Item::Start);
            }
            Ok(Told::Gap) => self.received.push(Item::Gap),
            Ok(Told::Packet(packet)) => {
                let events = packet.events();
                assert!(events.len() == 2 && events[0] == events[1]);
                self.received.push(Item::Packet(events[0].value));
            }
            Ok(told) => assert!(!matches!(told, Told::EmptyReport | Told::Reset(_))),
            Err(refusal) => assert!(
                [Refusal::NothingToRead, Refusal::BadIndex].contains(&refusal),
                "{refusal}"
            ),
        }
    }

    fn read_all(&mut self) {
        for _ in 0..4096 {
            self.step();
        }
        assert_eq!(self.driver.step(), Err(Refusal::NothingToRead));
    }

    /// Each start is followed by the packets of one stretch of sixteen, from its first one on.
    fn check_starts(&self) {
        assert_eq!(self.received[0], Item::Start);
        for pair in self.received.windows(2) {
            match pair {
                [Item::Start, Item::Packet(number)] => assert_eq!(number % 16, 0),
                [Item::Packet(before), Item::Packet(number)] => assert_eq!(*number, before + 1),
                [_, Item::Start] => {}
                other => panic!("{other:?}"),
            }
        }
    }
}

fn both_ends(geometry: Geometry) -> Answer<(Host, Guest)> {
    let (area, page) = (shared_words(geometry.area_length()), shared_words(PAGE_LENGTH));
    let mut host = Host {
        device: LiveDevice::new(geometry, area, page)?,
        number: 0,
        lost: false,
        sent: Vec::new(),
    };
    host.device.add(SLOT, &Entry::new("mouse").offer_rel())?;
    host.device.write(CLIENT_REV, 4, 2)?;
    host.switch_on();
    let guest = Guest {
        driver: LiveDriver::new(geometry, area, page)?,
        received: Vec::new(),
    };
    Ok((host, guest))
}

fn deliver(which: Interrupted) -> Answer<()> {
    let (host, guest) = both_ends(Geometry::new(1, 64, 256)?)?;
    let (host, mut guest) = run(host, Host::put, guest, Guest::step, which);
    guest.read_all();
    assert!(host.sent.contains(&Item::Gap) && host.sent.len() > 1000);
    assert_eq!(guest.received, host.sent);
    Ok(())
}

fn restart(which: Interrupted) -> Answer<()> {
    let (host, guest) = both_ends(Geometry::new(1, 8, 68)?)?;
    let (host, mut guest) = run(host, Host::put_or_restart, guest, Guest::step, which);
    guest.read_all();
    assert!(guest.received.iter().filter(|item| **item == Item::Start).count() > 100);
    assert_eq!(guest.received.last(), host.sent.last());
    guest.check_starts();
    Ok(())
}

/// Told of a slot, a guest looks its entry up at once.
#[test]
fn an_entry_is_in_place_when_it_is_told_of() -> Answer<()> {
    let (mut host, mut guest) = both_ends(Geometry::new(1, 8, 256)?)?;
    let pen = Entry::new("pen");
    guest.read_all();
    let told = Rc::new(RefCell::new(Vec::new()));
    let log = told.clone();
    let look_up = move || {
        if let Ok(what) = guest.driver.step() {
            log.borrow_mut().push((what, guest.driver.lookup(5)));
        }
    };
    let plug = || {
        host.device.add(5, &pen).expect("a free slot");
        (0..64).for_each(|_| assert_eq!(host.device.read(REV, 4), Ok(2)));
        host.device.remove(5).expect("a taken slot");
        (0..64).for_each(|_| assert_eq!(host.device.read(REV, 4), Ok(2)));
    };
    interleave(1, plug, look_up);
    let expected = [(Told::Conf(5), Ok(pen)), (Told::Reset(5), Err(Refusal::BadSlot))];
    assert_eq!(told.take(), expected);
    Ok(())
}

#[test]
fn packets_are_delivered_by_an_interrupted_host() -> Answer<()> {
    deliver(Interrupted::Writer)
}

#[test]
fn packets_are_delivered_to_an_interrupted_guest() -> Answer<()> {
    deliver(Interrupted::Reader)
}

#[test]
fn a_restart_by_an_interrupted_host_is_whole() -> Answer<()> {
    restart(Interrupted::Writer)
}

#[test]
fn a_restart_under_an_interrupted_guest_is_whole() -> Answer<()> {
    restart(Interrupted::Reader)
}

/// What the documentation warns of: from READ_PTR 0 the guest copies more records than a restart leaves, and doesn't notice it.
#[test]
fn a_restart_at_rest_mends_an_unnoticed_one() -> Answer<()> {
    let (mut host, mut guest) = both_ends(Geometry::new(1, 8, 68)?)?;
    (0..20).for_each(|_| host.put());
    let host = Rc::new(RefCell::new(host));
    let restarting = host.clone();
    let mut out = [0; 8 * 40];
    // Both pointers are loaded by then.
    let copied = interrupt(
        3,
        || guest.driver.copy_out(40, &mut out),
        move || {
            restarting.borrow_mut().switch_on();
        },
    );
    assert_eq!(copied, Ok(40));
    let mut host = Rc::into_inner(host).expect("the closure is gone").into_inner();
    assert_eq!(host.device.read(READ_PTR, 4), Ok(40));
    assert_eq!(host.device.device().write_index(), 2);

    host.switch_on();
    guest.driver.restart();
    host.put();
    guest.read_all();
    assert_eq!(guest.received, [Item::Start, Item::Packet(20)]);
    Ok(())
}
