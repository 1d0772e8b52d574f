//! A guest that writes its pages at any moment: the host's state is what the read pointers alone make of it.
mod common;

use common::{clicks, mouse, Guarded, Mark, Random};
use std::sync::atomic::{AtomicU32, Ordering};
use std::thread;
use thayarqo::live::{LiveDevice, LiveDriver, LiveRevision1Driver};
use thayarqo::register::{ACCELERATION, CLIENT_REV, CONTROL, CONTROL_ON, ISR, READ_PTR};
use thayarqo::{Answer, Device, Geometry, Packet, Refusal};

const CALLS: u32 = 300_000;

/// The host goes on until the guest and the scribbler have had so many rounds each.
const ROUNDS: u32 = 2000;

fn geometry() -> Answer<Geometry> {
    Geometry::new(1, 8, 72)
}

/// A host with a reference beside it, which nobody can scribble on.
struct Host<'a> {
    live: LiveDevice<'a>,
    reference: Device,
    accepted: u32,
    refused: u32,
}

impl Host<'_> {
    /// The same call on both. The reference is given the read pointer that the live one has loaded.
    fn call(
        &mut self,
        live: impl FnOnce(&mut LiveDevice) -> Answer<()>,
        reference: impl FnOnce(&mut Device) -> Answer<()>,
    ) {
        let answer = live(&mut self.live);
        self.reference.set_read_pointer(self.live.device().read_pointer());
        assert_eq!(answer, reference(&mut self.reference));
        assert!(*self.live.device() == self.reference, "the states differ");
        match answer {
            Ok(()) => self.accepted += 1,
            Err(Refusal::NoRoom | Refusal::BadIndex) => self.refused += 1,
            Err(refusal) => panic!("{refusal}"),
        }
    }

    fn put(&mut self, slot: u32, count: u32) {
        let packet = Packet::new(slot, &clicks(count as usize)).expect("1 to 32 events");
        self.call(|live| live.put_packet(&packet), |device| device.put_packet(&packet));
    }

    fn plug(&mut self, slot: u32) {
        if self.reference.is_taken(slot) {
            self.call(|live| live.remove(slot), |device| device.remove(slot));
        } else {
            self.call(|live| live.add(slot, &mouse()), |device| device.add(slot, &mouse()));
        }
    }

    fn write(&mut self, offset: u64, value: u32) {
        self.call(
            |live| live.write(offset, 4, value),
            |device| device.write(offset, 4, value),
        );
    }

    fn run(&mut self, random: &mut Random) {
        match random.below(100) {
            0..80 => self.put(1, 1 + random.below(32)),
            80..90 => self.plug(2 + random.below(50)),
            90..95 => self.write(READ_PTR, random.below(600)),
            95..97 => self.write(ISR, 1),
            97..98 => self.write(CONTROL, 0),
            98..99 => self.write(ACCELERATION, random.below(25)),
            _ => self.write(CLIENT_REV, 7),
        }
        if !self.reference.is_on() {
            self.write(CONTROL, CONTROL_ON);
        }
    }
}

#[derive(Default)]
struct Marks {
    host_is_done: Mark,
    guest_has_run: Mark,
    scribbler_has_run: Mark,
}

impl Marks {
    /// Rounds until the host is done; sets a mark once they are many.
    fn go_round(&self, has_run: &Mark, mut round: impl FnMut()) {
        let mut rounds = 0;
        while !self.host_is_done.is_set() {
            round();
            rounds += 1;
            if rounds == ROUNDS {
                has_run.set();
            }
        }
    }
}

fn run_revision1_guest(pages: &Guarded, marks: &Marks) -> Answer<()> {
    let mut driver = LiveRevision1Driver::new(geometry()?, pages.shared(0))?;
    marks.go_round(&marks.guest_has_run, || {
        assert!(matches!(
            driver.receive(),
            Ok(_) | Err(Refusal::Malformed | Refusal::BadIndex | Refusal::NothingToRead)
        ));
    });
    Ok(())
}

fn run_guest(pages: &Guarded, marks: &Marks) -> Answer<()> {
    let mut driver = LiveDriver::new(geometry()?, pages.shared(0), pages.shared(1))?;
    let mut random = Random(77);
    let mut out = [0; 80];
    marks.go_round(&marks.guest_has_run, || match random.below(10) {
        0 => assert!(matches!(driver.lookup(random.below(70)), Ok(_) | Err(Refusal::BadSlot))),
        1 => assert!(matches!(
            driver.copy_out(random.below(20), &mut out),
            Ok(0..=10) | Err(Refusal::BadIndex | Refusal::NothingToRead)
        )),
        _ => assert!(matches!(
            driver.step(),
            Ok(_) | Err(Refusal::Malformed | Refusal::BadIndex | Refusal::NothingToRead)
        )),
    });
    Ok(())
}

/// Any word, any number; the pointers more often than others, so that they are possible now and then.
fn scribble(area: &[AtomicU32], page: &[AtomicU32], marks: &Marks) {
    let mut random = Random(99);
    marks.go_round(&marks.scribbler_has_run, || {
        for _ in 0..32 {
            let place = random.next() as usize;
            area[place % area.len()].store(random.next(), Ordering::Relaxed);
            page[place % page.len()].store(random.next(), Ordering::Relaxed);
        }
        area[random.below(2) as usize].store(random.below(520), Ordering::Relaxed);
        thread::yield_now();
    });
}

fn run_host(host: &mut Host, client_rev: u32, marks: &Marks) {
    host.plug(1);
    host.write(CLIENT_REV, client_rev);
    host.write(CONTROL, CONTROL_ON);
    let mut random = Random(55);
    for _ in 0..CALLS {
        host.run(&mut random);
    }
    while !marks.guest_has_run.is_set() || !marks.scribbler_has_run.is_set() {
        host.run(&mut random);
        thread::yield_now();
    }
}

/// The guest writes this to CLIENT_REV, and has a driver for it.
fn run_all(client_rev: u32, run_guest: fn(&Guarded, &Marks) -> Answer<()>) -> Answer<()> {
    let pages = Guarded::pages(geometry()?);
    let live = LiveDevice::new(geometry()?, pages.shared(0), pages.shared(1))?;
    let reference = live.device().clone();
    let mut host = Host {
        live,
        reference,
        accepted: 0,
        refused: 0,
    };
    let marks = Marks::default();
    thread::scope(|scope| {
        let guest = scope.spawn(|| marks.guest_has_run.after(|| run_guest(&pages, &marks)));
        scope.spawn(|| scribble(pages.words(0), pages.words(1), &marks));
        marks.host_is_done.after(|| run_host(&mut host, client_rev, &marks));
        guest.join().expect("the guest")
    })?;
    assert!(host.accepted > 1000 && host.refused > 1000);
    assert!(pages.is_whole());
    Ok(())
}

#[test]
fn scribbling_changes_nothing_but_what_the_guest_reads() -> Answer<()> {
    run_all(2, run_guest)
}

#[test]
fn scribbling_changes_nothing_in_revision_1() -> Answer<()> {
    run_all(1, run_revision1_guest)
}
