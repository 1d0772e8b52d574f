//! A host and a guest of revision 1 in two threads: the guest receives the groups of the accepted packets, each whole, in order; also
//! of those after a restart, for which its driver rests.
mod common;

use common::{switch_on, Digest, Guarded, Mark};
use std::sync::Mutex;
use std::thread;
use thayarqo::codes::{BTN_LEFT, REL_WHEEL, REL_X, REL_Y};
use thayarqo::live::{LiveDevice, LiveRevision1Driver};
use thayarqo::register::{CONTROL, CONTROL_ON};
use thayarqo::{Answer, Entry, Event, Geometry, Group, Packet, Refusal, Revision, Revision1Event};

const SLOT: u32 = 4;
const RESTARTS: u32 = 2000;

fn started(geometry: Geometry, pages: &Guarded) -> Answer<(LiveDevice<'_>, LiveRevision1Driver<'_>)> {
    let mut device = LiveDevice::new(geometry, pages.shared(0), pages.shared(1))?;
    device.add(SLOT, &Entry::new("mouse").offer_rel().offer_key(BTN_LEFT)?)?;
    switch_on(&mut device, Revision::One)?;
    Ok((device, LiveRevision1Driver::new(geometry, pages.shared(0))?))
}

/// A packet with its number inside, which the wheel carries whole. Its length changes each time.
fn packet(number: u32) -> Packet {
    let (x, y) = motion(number);
    let mut events = vec![Event::key(BTN_LEFT, true); number as usize % 5];
    events.extend([
        Event::rel(REL_WHEEL, number as i32),
        Event::rel(REL_Y, y.into()),
        Event::rel(REL_X, x.into()),
    ]);
    Packet::new(SLOT, &events).expect("3 to 7 events")
}

fn motion(number: u32) -> (i16, i16) {
    ((number % 30_000) as i16, -((number % 20_000) as i16))
}

/// The number of a group, which has to be that of the packet with this number.
fn number_of(group: &Group) -> u32 {
    let mut events: Vec<_> = group.events().collect();
    let Some(Revision1Event::VWheel(wheel)) = events.pop() else {
        panic!("{group}");
    };
    let (x, y) = motion(wheel as u32);
    let mut expected = vec![Revision1Event::Relative { x, y }];
    let pressed = Revision1Event::Button {
        code: BTN_LEFT,
        pressed: true,
    };
    expected.resize(1 + wheel as usize % 5, pressed);
    assert_eq!(events, expected);
    wheel as u32
}

/// How far the two threads have come. The guest begins when the ring is full for the first time.
#[derive(Default)]
struct Marks {
    ring_was_full: Mark,
    host_is_done: Mark,
    guest_is_done: Mark,
}

/// Puts packets until so many are accepted.
fn send(mut device: LiveDevice, accepted: u64, marks: &Marks) -> Digest {
    let mut log = Digest::default();
    for number in 0.. {
        if log.items == accepted {
            break;
        }
        match device.put_packet(&packet(number)) {
            Ok(()) => log.add(u64::from(number)),
            Err(refusal) => {
                assert_eq!(refusal, Refusal::NoRoom);
                assert!(!marks.guest_is_done.is_set());
                marks.ring_was_full.set();
                thread::yield_now();
            }
        }
    }
    log
}

/// Reads until the host is done and nothing is left.
fn receive(mut driver: LiveRevision1Driver, marks: &Marks) -> Digest {
    while !marks.ring_was_full.is_set() && !marks.host_is_done.is_set() {
        thread::yield_now();
    }
    let mut log = Digest::default();
    loop {
        let last_round = marks.host_is_done.is_set();
        match driver.receive() {
            Ok(Some(group)) => log.add(u64::from(number_of(&group))),
            Ok(None) => {}
            Err(Refusal::NothingToRead) if last_round => return log,
            Err(Refusal::NothingToRead) => thread::yield_now(),
            Err(refusal) => panic!("{refusal}"),
        }
    }
}

fn deliver(geometry: Geometry, packets: u64) -> Answer<()> {
    let pages = Guarded::pages(geometry);
    let (device, driver) = started(geometry, &pages)?;
    assert_eq!(driver.driver().geometry(), geometry);
    let marks = Marks::default();
    let (sent, received) = thread::scope(|scope| {
        let guest = scope.spawn(|| marks.guest_is_done.after(|| receive(driver, &marks)));
        let sent = marks.host_is_done.after(|| send(device, packets, &marks));
        (sent, guest.join().expect("the guest"))
    });
    assert_eq!((received, received.items), (sent, packets));
    assert!(pages.is_whole());
    Ok(())
}

#[test]
fn a_million_groups_in_a_page() -> Answer<()> {
    deliver(Geometry::new(1, 8, 68)?, 1_000_000)
}

#[test]
fn groups_in_the_smallest_ring() -> Answer<()> {
    deliver(Geometry::new(1, 64, 256)?, 300_000)
}

/// Puts packets until the guest is done. The lock stands for the host's own: a guest's write of CONTROL comes in between packets.
fn send_meanwhile(device: &Mutex<(LiveDevice, u32)>, guest_is_done: &Mark) {
    while !guest_is_done.is_set() {
        let (device, number) = &mut *device.lock().expect("the other thread");
        let answer = device.put_packet(&packet(*number));
        assert!(matches!(answer, Ok(()) | Err(Refusal::NoRoom)), "{answer:?}");
        *number += 1;
    }
}

/// Switches the device off and on, and answers the number of the next packet.
fn restart(device: &Mutex<(LiveDevice, u32)>) -> Answer<u32> {
    let (device, number) = &mut *device.lock().expect("the other thread");
    device.write(CONTROL, 4, 0)?;
    device.write(CONTROL, 4, CONTROL_ON)?;
    Ok(*number)
}

/// Receives some groups between two restarts: none of them is older than the restart.
fn receive_and_restart(device: &Mutex<(LiveDevice, u32)>, mut driver: LiveRevision1Driver) -> Answer<()> {
    for round in 0..RESTARTS {
        let mut next = restart(device)?;
        driver.restart();
        let mut groups = 0;
        while groups < round % 50 {
            match driver.receive() {
                Ok(Some(group)) => {
                    let number = number_of(&group);
                    assert!(number >= next, "group {number} where {next} was next");
                    next = number + 1;
                    groups += 1;
                }
                Ok(None) => {}
                Err(Refusal::NothingToRead) => thread::yield_now(),
                Err(refusal) => panic!("{refusal}"),
            }
        }
        // In the middle of a group, now and then.
        for _ in 0..round % 3 {
            let _ = driver.receive();
        }
    }
    Ok(())
}

#[test]
fn a_restart_is_seen_whole_by_a_guest_that_rests() -> Answer<()> {
    let geometry = Geometry::new(1, 64, 256)?;
    let pages = Guarded::pages(geometry);
    let (device, driver) = started(geometry, &pages)?;
    let device = Mutex::new((device, 0));
    let guest_is_done = Mark::default();
    thread::scope(|scope| {
        scope.spawn(|| send_meanwhile(&device, &guest_is_done));
        guest_is_done.after(|| receive_and_restart(&device, driver))
    })?;
    assert!(pages.is_whole());
    Ok(())
}
