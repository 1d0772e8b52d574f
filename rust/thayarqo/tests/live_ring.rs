//! The keyboard ring between threads: all that is put is taken, in order; and a guest that scribbles changes nothing for the host.
mod common;

use common::{Digest, Guarded, Mark, Random};
use std::sync::atomic::{AtomicU32, Ordering};
use std::thread;
use thayarqo::live::{LiveConsumer, LiveProducer};
use thayarqo::{Answer, Refusal, RingConsumer, RingEvent, RingProducer, RING_PAGE_LENGTH};

const EVENTS: u32 = 2_000_000;
const CALLS: u32 = 500_000;

/// The host goes on until so many of its calls were accepted, and so many refused: the other threads may be slow to start.
const OF_EACH: u32 = 1000;

fn event(number: u32) -> RingEvent {
    let (x, y, contact) = (number as i32, !number as i32, (number % 32) as u8);
    match number % 3 {
        0 => RingEvent::Motion { x, y, z: 1 },
        1 => RingEvent::Key {
            pressed: true,
            keycode: number,
        },
        _ => RingEvent::TouchMotion { contact, x, y },
    }
}

fn digest_of(event: RingEvent) -> u64 {
    match event {
        RingEvent::Motion { x, y, z } => (x as u64) << 32 ^ (y as u64) << 2 ^ z as u64,
        RingEvent::Key { keycode, .. } => u64::from(keycode),
        RingEvent::TouchMotion { contact, x, y } => (x as u64) << 32 ^ (y as u64) << 6 ^ u64::from(contact),
        other => panic!("{other:?} was never put"),
    }
}

/// Puts every event, and waits while there is no room.
fn send(mut producer: LiveProducer, guest_is_done: &Mark) -> Digest {
    let mut log = Digest::default();
    for number in 0..EVENTS {
        while let Err(refusal) = producer.put(event(number)) {
            assert_eq!(refusal, Refusal::NoRoom);
            assert!(!guest_is_done.is_set());
            thread::yield_now();
        }
        log.add(digest_of(event(number)));
    }
    log
}

fn receive(mut consumer: LiveConsumer, host_is_done: &Mark) -> Digest {
    let mut log = Digest::default();
    loop {
        let last_round = host_is_done.is_set();
        match consumer.take() {
            Ok(taken) => {
                assert_eq!(taken, event(log.items as u32));
                log.add(digest_of(taken));
            }
            Err(Refusal::NothingToRead) if last_round => return log,
            Err(Refusal::NothingToRead) => thread::yield_now(),
            Err(refusal) => panic!("{refusal}"),
        }
    }
}

/// The front end hands its page over as zeros.
fn zeroed_page() -> Guarded {
    let page = Guarded::new(&[RING_PAGE_LENGTH]);
    page.words(0).iter().for_each(|word| word.store(0, Ordering::Relaxed));
    page
}

#[test]
fn two_million_events() -> Answer<()> {
    let page = zeroed_page();
    let producer = LiveProducer::new(RingProducer::new(32)?, page.shared(0))?;
    let consumer = LiveConsumer::new(RingConsumer::new(32)?, page.shared(0))?;
    let (host_is_done, guest_is_done) = (Mark::default(), Mark::default());
    let (sent, received) = thread::scope(|scope| {
        let guest = scope.spawn(|| guest_is_done.after(|| receive(consumer, &host_is_done)));
        let sent = host_is_done.after(|| send(producer, &guest_is_done));
        (sent, guest.join().expect("the guest"))
    });
    assert_eq!(received, sent);
    assert_eq!(received.items, u64::from(EVENTS));
    assert!(page.is_whole());
    Ok(())
}

/// Puts events here and to a reference, which is given the in_cons that was loaded.
fn put_beside_reference(mut producer: LiveProducer, in_prod: &AtomicU32) {
    let mut reference = producer.producer().clone();
    let mut page = [0; RING_PAGE_LENGTH];
    let (mut accepted, mut refused) = (0, 0);
    while accepted < OF_EACH || refused < OF_EACH || accepted + refused < CALLS {
        let number = accepted + refused;
        let answer = producer.put(event(number));
        page[..4].copy_from_slice(&producer.page()[..4]);
        assert_eq!(answer, reference.put(&mut page, event(number)));
        assert!(
            *producer.producer() == reference && producer.page() == page,
            "the states differ"
        );
        match answer {
            Ok(()) => accepted += 1,
            Err(Refusal::NoRoom | Refusal::BadIndex) => refused += 1,
            Err(refusal) => panic!("{refusal}"),
        }
        in_prod.store(reference.index(), Ordering::Relaxed);
        if number % 512 == 0 {
            thread::yield_now();
        }
    }
}

fn take_scribbles(mut consumer: LiveConsumer, host_is_done: &Mark) {
    let mut consumed = 0;
    while !host_is_done.is_set() {
        match consumer.take() {
            Ok(_) | Err(Refusal::Malformed) => consumed += 1,
            Err(refusal) => assert!(
                [Refusal::BadIndex, Refusal::NothingToRead].contains(&refusal),
                "{refusal}"
            ),
        }
        assert_eq!(consumer.consumer().index(), consumed);
    }
}

/// Any word, any number; and indices near the host's now and then, so that they are possible.
fn scribble(page: &[AtomicU32], in_prod: &AtomicU32, host_is_done: &Mark) {
    let mut random = Random(31);
    while !host_is_done.is_set() {
        for _ in 0..32 {
            page[random.below(1024) as usize].store(random.next(), Ordering::Relaxed);
        }
        let near = in_prod.load(Ordering::Relaxed).wrapping_sub(random.below(60));
        page[0].store(near, Ordering::Relaxed);
        thread::yield_now();
    }
}

#[test]
fn scribbling_changes_nothing_for_the_host() -> Answer<()> {
    let page = zeroed_page();
    let producer = LiveProducer::new(RingProducer::new(32)?, page.shared(0))?;
    let consumer = LiveConsumer::new(RingConsumer::new(32)?, page.shared(0))?;
    let host_is_done = Mark::default();
    let in_prod = AtomicU32::new(0);
    thread::scope(|scope| {
        scope.spawn(|| take_scribbles(consumer, &host_is_done));
        scope.spawn(|| scribble(page.words(0), &in_prod, &host_is_done));
        host_is_done.after(|| put_beside_reference(producer, &in_prod));
    });
    assert!(page.is_whole());
    Ok(())
}
