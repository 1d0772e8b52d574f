//! A host and a guest in two threads: what the guest receives is what the host has put, with a gap just where a packet was refused.
mod common;

use common::{switch_on, Guarded, Log, Mark};
use std::thread;
use thayarqo::codes::{REL_X, REL_Y};
use thayarqo::live::{LiveDevice, LiveDriver, Shared};
use thayarqo::{Answer, Entry, Event, Geometry, Packet, Refusal, Revision, Source, Told};

const SLOTS: [u32; 2] = [3, 7];

fn started(geometry: Geometry, pages: &Guarded) -> Answer<(LiveDevice<'_>, LiveDriver<'_>)> {
    let (mut device, driver) = pages.both_ends(geometry)?;
    for slot in SLOTS {
        device.add(slot, &Entry::new("mouse").offer_rel())?;
    }
    switch_on(&mut device, Revision::Two)?;
    Ok((device, driver))
}

/// A packet with its number inside. The slot changes now and then, and the length each time.
fn packet(number: u32) -> Packet {
    let slot = SLOTS[(number / 1000) as usize % 2];
    let mut events = vec![Event::rel(REL_X, number as i32)];
    events.resize(1 + number as usize % 5, Event::rel(REL_Y, !number as i32));
    Packet::new(slot, &events).expect("1 to 5 events")
}

/// How far the two threads have come. The guest begins when the ring is full for the first time.
#[derive(Default)]
struct Marks {
    ring_was_full: Mark,
    host_is_done: Mark,
    guest_is_done: Mark,
}

/// Puts packets until so many are accepted. One that is refused is lost.
fn send(mut device: LiveDevice, accepted: u64, marks: &Marks) -> Log {
    let mut log = Log::default();
    let mut number = 0;
    let mut lost = false;
    while log.packets < accepted {
        let packet = packet(number);
        number += 1;
        match device.put_packet(&packet) {
            Ok(()) if lost => {
                log.add_gap();
                log.add_packet(&packet);
                lost = false;
            }
            Ok(()) => log.add_packet(&packet),
            Err(refusal) => {
                assert_eq!(refusal, Refusal::NoRoom);
                assert!(!marks.guest_is_done.is_set());
                marks.ring_was_full.set();
                lost = true;
                thread::yield_now();
            }
        }
    }
    log
}

/// Steps until the host is done and nothing is left. Numbers are missing after a gap, and only there.
fn receive(mut driver: LiveDriver, marks: &Marks) -> Log {
    while !marks.ring_was_full.is_set() && !marks.host_is_done.is_set() {
        thread::yield_now();
    }
    let mut log = Log::default();
    let mut expected = 0;
    let mut gap = false;
    loop {
        let last_round = marks.host_is_done.is_set();
        match driver.step() {
            Ok(Told::Gap) => {
                log.add_gap();
                gap = true;
            }
            Ok(Told::Packet(packet)) => {
                let number = packet.events()[0].value;
                assert_eq!(number > expected, gap, "packet {number} where {expected} was next");
                assert_eq!(packet, self::packet(number));
                log.add_packet(&packet);
                expected = number + 1;
                gap = false;
            }
            Ok(_) => {}
            Err(Refusal::NothingToRead) if last_round => return log,
            Err(Refusal::NothingToRead) => thread::yield_now(),
            Err(refusal) => panic!("{refusal}"),
        }
    }
}

fn deliver(geometry: Geometry, packets: u64) -> Answer<()> {
    let pages = Guarded::pages(geometry);
    let (device, driver) = started(geometry, &pages)?;
    let marks = Marks::default();
    let (sent, received) = thread::scope(|scope| {
        let guest = scope.spawn(|| marks.guest_is_done.after(|| receive(driver, &marks)));
        let sent = marks.host_is_done.after(|| send(device, packets, &marks));
        (sent, guest.join().expect("the guest"))
    });
    assert_eq!(received, sent);
    assert_eq!(received.packets, packets);
    assert!(received.gaps > 0);
    assert!(pages.is_whole());
    Ok(())
}

#[test]
fn two_million_packets_in_a_page() -> Answer<()> {
    deliver(Geometry::new(1, 8, 68)?, 2_000_000)
}

#[test]
fn packets_in_the_smallest_ring() -> Answer<()> {
    deliver(Geometry::new(1, 64, 256)?, 300_000)
}

#[test]
fn packets_in_the_largest_ring() -> Answer<()> {
    deliver(Geometry::new(8, 8, 72)?, 300_000)
}

#[test]
fn a_driver_tells_its_sizes_and_its_source() -> Answer<()> {
    let geometry = Geometry::new(1, 64, 256)?;
    let pages = Guarded::pages(geometry);
    let (mut device, mut driver) = started(geometry, &pages)?;
    assert_eq!(driver.driver().geometry(), geometry);
    assert_eq!(driver.driver().source(), Source::None);
    device.put_packet(&packet(0))?;
    while driver.step()? != Told::Packet(packet(0)) {}
    assert_eq!(driver.driver().source(), packet(0).source());
    Ok(())
}

#[test]
fn a_raw_mapping_is_as_good() -> Answer<()> {
    let geometry = Geometry::new(1, 8, 68)?;
    let mut words = vec![0_u32; 2 * 1024];
    let start = words.as_mut_ptr();
    // SAFETY: the words live to the end of the test, and are touched through these two alone.
    let (area, page) = unsafe { (Shared::from_raw(start, 1024), Shared::from_raw(start.add(1024), 1024)) };
    let mut device = LiveDevice::new(geometry, area, page)?;
    let mut driver = LiveDriver::new(geometry, area, page)?;
    device.add(4, &Entry::new("mouse").offer_rel())?;
    switch_on(&mut device, Revision::Two)?;
    assert_eq!(driver.step(), Ok(Told::ResetAll));
    assert_eq!(driver.step(), Ok(Told::Conf(4)));
    assert_eq!(driver.lookup(4)?.name(), b"mouse");
    assert_eq!(driver.step(), Err(Refusal::NothingToRead));
    Ok(())
}
