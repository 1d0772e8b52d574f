//! A guest that goes on stepping while the device is switched off and on again. Here the ring doesn't come round in between, so each
//! start that the guest sees is whole: it is told of the reset, and then of that start's packets from the first one on. It may miss a
//! start altogether. [`LiveDriver::restart`] says what can go wrong in other rings.
mod common;

use common::{Guarded, Mark};
use std::thread;
use thayarqo::codes::REL_X;
use thayarqo::live::{LiveDevice, LiveDriver};
use thayarqo::register::{CLIENT_REV, CONTROL, CONTROL_ON};
use thayarqo::{Answer, Entry, Event, Geometry, Packet, Refusal, Source, Told};

const SLOT: u32 = 4;
const RESTARTS: u32 = 20_000;

/// So few that the ring never comes round: record 0 is that of a restart, always.
const PACKETS: u32 = 20;

fn packet(restart: u32, number: u32) -> Packet {
    Packet::new(
        SLOT,
        &[Event::rel(REL_X, restart as i32), Event::rel(REL_X, number as i32)],
    )
    .expect("two events")
}

#[derive(Default)]
struct Marks {
    host_is_done: Mark,
    guest_has_seen_two: Mark,
}

/// Restarts often, and until the guest has seen two of them. Answers the number of the last one.
fn run_host(mut device: LiveDevice, marks: &Marks) -> Answer<u32> {
    device.add(SLOT, &Entry::new("mouse").offer_rel())?;
    device.write(CLIENT_REV, 4, 2)?;
    for restart in 0.. {
        device.write(CONTROL, 4, CONTROL_ON)?;
        for number in 0..PACKETS {
            device.put_packet(&packet(restart, number))?;
        }
        if restart % 4 == 0 {
            thread::yield_now();
        }
        if restart >= RESTARTS && marks.guest_has_seen_two.is_set() {
            return Ok(restart);
        }
        device.write(CONTROL, 4, 0)?;
    }
    unreachable!("the guest comes to its turn before the numbers end")
}

/// What the guest makes of the records since the last reset.
struct Reader {
    resets: u32,
    /// The number of the next packet, once a reset was read.
    next: Option<u32>,
    restart: Option<u32>,
}

impl Reader {
    fn read(&mut self, told: Told) {
        match told {
            Told::ResetAll => {
                self.resets += 1;
                self.next = Some(0);
                self.restart = None;
            }
            Told::Conf(slot) => assert_eq!(slot, SLOT),
            Told::Set(source) => assert_eq!(source, Source::Slot(SLOT)),
            Told::Packet(received) => {
                let restart = received.events()[0].value;
                let number = self.next.expect("a reset first");
                assert_eq!(received, packet(restart, number));
                assert_eq!(*self.restart.get_or_insert(restart), restart, "packets of one start");
                self.next = Some(number + 1);
            }
            other => assert_eq!(other, Told::Nothing),
        }
    }
}

fn run_guest(mut driver: LiveDriver, marks: &Marks) -> Reader {
    let mut reader = Reader {
        resets: 0,
        next: None,
        restart: None,
    };
    loop {
        let last_round = marks.host_is_done.is_set();
        match driver.step() {
            Ok(told) => {
                if told == Told::ResetAll {
                    driver.restart();
                }
                reader.read(told);
                if reader.resets == 2 {
                    marks.guest_has_seen_two.set();
                }
            }
            Err(Refusal::NothingToRead) if last_round => return reader,
            Err(Refusal::NothingToRead) => thread::yield_now(),
            Err(refusal) => assert_eq!(refusal, Refusal::BadIndex),
        }
    }
}

#[test]
fn a_restart_is_seen_whole() -> Answer<()> {
    let geometry = Geometry::new(1, 8, 68)?;
    let pages = Guarded::pages(geometry);
    let (device, driver) = pages.both_ends(geometry)?;
    let marks = Marks::default();
    let (last, reader) = thread::scope(|scope| {
        let guest = scope.spawn(|| marks.guest_has_seen_two.after(|| run_guest(driver, &marks)));
        let last = marks.host_is_done.after(|| run_host(device, &marks))?;
        Ok((last, guest.join().expect("the guest")))
    })?;
    assert_eq!((reader.restart, reader.next), (Some(last), Some(PACKETS)));
    assert!(pages.is_whole());
    Ok(())
}
