//! What the tests of live guests share: guarded memory, digests of logs, and random numbers.
#![allow(dead_code, reason = "each test uses a part")]
use std::sync::atomic::{AtomicBool, AtomicU32, Ordering};
use thayarqo::codes::{BTN_LEFT, REL_X};
use thayarqo::live::{LiveDevice, LiveDriver, Shared};
use thayarqo::register::{CLIENT_REV, CONTROL, CONTROL_ON};
use thayarqo::{Answer, Entry, Event, Geometry, Packet, Revision};

const GUARD: u32 = 0xA5A5_A5A5;
const GUARD_WORDS: usize = 16;

/// Stretches of shared words with guard words around each.
pub struct Guarded(Vec<Vec<AtomicU32>>);

impl Guarded {
    pub fn new(lengths: &[usize]) -> Guarded {
        let stretch = |bytes: &usize| (0..bytes / 4 + 2 * GUARD_WORDS).map(|_| AtomicU32::new(GUARD));
        Guarded(lengths.iter().map(|bytes| stretch(bytes).collect()).collect())
    }

    /// The event area and the entry page.
    pub fn pages(geometry: Geometry) -> Guarded {
        Guarded::new(&[geometry.area_length(), thayarqo::PAGE_LENGTH])
    }

    pub fn words(&self, stretch: usize) -> &[AtomicU32] {
        let words = &self.0[stretch];
        &words[GUARD_WORDS..words.len() - GUARD_WORDS]
    }

    pub fn shared(&self, stretch: usize) -> Shared<'_> {
        Shared::new(self.words(stretch))
    }

    /// Both ends of a device on these pages.
    pub fn both_ends(&self, geometry: Geometry) -> Answer<(LiveDevice<'_>, LiveDriver<'_>)> {
        let device = LiveDevice::new(geometry, self.shared(0), self.shared(1))?;
        let driver = LiveDriver::new(geometry, self.shared(0), self.shared(1))?;
        Ok((device, driver))
    }

    pub fn is_whole(&self) -> bool {
        let is_guard = |word: &AtomicU32| word.load(Ordering::Relaxed) == GUARD;
        self.0.iter().all(|words| {
            let ends = words.len() - GUARD_WORDS;
            words[..GUARD_WORDS].iter().chain(&words[ends..]).all(is_guard)
        })
    }
}

/// A guest of revision 1 says nothing of its revision.
pub fn switch_on(device: &mut LiveDevice, revision: Revision) -> Answer<()> {
    if revision == Revision::Two {
        device.write(CLIENT_REV, 4, 2)?;
    }
    device.write(CONTROL, 4, CONTROL_ON)
}

/// A mouse with the events of [`clicks`].
pub fn mouse() -> Entry {
    let mouse = Entry::new("mouse").offer_rel();
    mouse.offer_key(BTN_LEFT).expect("a button's code")
}

/// So many events that both revisions take: a movement and clicks.
pub fn clicks(count: usize) -> Vec<Event> {
    let mut events = vec![Event::key(BTN_LEFT, true); count];
    events[0] = Event::rel(REL_X, 1);
    events
}

/// A mark that a thread sets where it ends, also by a panic: no other thread waits for it in vain.
#[derive(Default)]
pub struct Mark(AtomicBool);

impl Mark {
    pub fn set(&self) {
        self.0.store(true, Ordering::Release);
    }

    pub fn is_set(&self) -> bool {
        self.0.load(Ordering::Acquire)
    }

    /// Runs something and sets the mark.
    pub fn after<T>(&self, run: impl FnOnce() -> T) -> T {
        struct Setter<'a>(&'a Mark);
        impl Drop for Setter<'_> {
            fn drop(&mut self) {
                self.0.set();
            }
        }
        let _setter = Setter(self);
        run()
    }
}

/// Stands for a log of numbers, in order.
#[derive(Clone, Copy, Debug, Default, PartialEq, Eq)]
pub struct Digest {
    pub items: u64,
    sum: u64,
}

impl Digest {
    pub fn add(&mut self, item: u64) {
        self.items += 1;
        self.sum = (self.sum ^ item).wrapping_mul(0x9E37_79B9_7F4A_7C15).rotate_left(29);
    }
}

/// The packets and gaps of a log.
#[derive(Clone, Copy, Debug, Default, PartialEq, Eq)]
pub struct Log {
    pub packets: u64,
    pub gaps: u64,
    digest: Digest,
}

impl Log {
    pub fn add_packet(&mut self, packet: &Packet) {
        self.packets += 1;
        for event in packet.events() {
            self.digest.add(u64::from(event.code) << 32 | u64::from(event.value));
        }
        self.digest.add(u64::MAX);
    }

    pub fn add_gap(&mut self) {
        self.gaps += 1;
        self.digest.add(u64::MAX - 1);
    }
}

/// Random numbers, the same in each run (xorshift).
pub struct Random(pub u64);

impl Random {
    pub fn next(&mut self) -> u32 {
        self.0 ^= self.0 << 13;
        self.0 ^= self.0 >> 7;
        self.0 ^= self.0 << 17;
        (self.0 >> 32) as u32
    }

    pub fn below(&mut self, limit: u32) -> u32 {
        self.next() % limit
    }
}
