//! Both ends of a keyboard ring whose other end runs at the same time.
use super::Shared;
use crate::refusal::{Answer, Refusal};
use crate::ring::{RingConsumer, RingProducer, RING_PAGE_LENGTH};
use crate::ring_event::{RingEvent, RING_EVENT_LENGTH};
use crate::words;
use std::ops::Range;
use std::sync::atomic::Ordering;

const IN_CONS: usize = 0;
const IN_PROD: usize = 4;
const EVENTS: usize = 1024;
const PLACES: usize = 51;

/// The bytes of the event with an index.
fn place_of(index: u32) -> Range<usize> {
    let start = EVENTS + index as usize % PLACES * RING_EVENT_LENGTH;
    start..start + RING_EVENT_LENGTH
}

fn own_page(page: Shared) -> Answer<Vec<u8>> {
    if page.length() != RING_PAGE_LENGTH {
        return Err(Refusal::Invalid);
    }
    Ok(vec![0; RING_PAGE_LENGTH])
}

/// The host's end: its calls are those of [`RingProducer`].
#[derive(Debug)]
pub struct LiveProducer<'a> {
    producer: RingProducer,
    page: Shared<'a>,
    own_page: Vec<u8>,
}

impl<'a> LiveProducer<'a> {
    /// At the start of a ring whose page the guest has zeroed. [`Refusal::Invalid`] where it has another length.
    pub fn new(producer: RingProducer, page: Shared<'a>) -> Answer<LiveProducer<'a>> {
        Ok(LiveProducer {
            producer,
            page,
            own_page: own_page(page)?,
        })
    }

    /// See [`RingProducer::put`].
    pub fn put(&mut self, event: RingEvent) -> Answer<()> {
        self.put_bytes(&event.encode()?)
    }

    /// See [`RingProducer::put_bytes`].
    pub fn put_bytes(&mut self, event: &[u8]) -> Answer<()> {
        words::set(&mut self.own_page, IN_CONS, self.page.load(IN_CONS, Ordering::Acquire));
        let place = place_of(self.producer.index());
        self.producer.put_bytes(&mut self.own_page, event)?;
        self.page.copy_out(place.start, &self.own_page[place]);
        self.page.store(IN_PROD, self.producer.index(), Ordering::Release);
        Ok(())
    }

    /// The ring's page as this end sees it, with the in_cons of the last call.
    pub fn page(&self) -> &[u8] {
        &self.own_page
    }

    /// This end, with its index.
    pub fn producer(&self) -> &RingProducer {
        &self.producer
    }
}

/// The guest's end: its calls are those of [`RingConsumer`].
#[derive(Debug)]
pub struct LiveConsumer<'a> {
    consumer: RingConsumer,
    page: Shared<'a>,
    own_page: Vec<u8>,
}

impl<'a> LiveConsumer<'a> {
    /// At the start of a ring whose page is zeros. [`Refusal::Invalid`] where it has another length.
    pub fn new(consumer: RingConsumer, page: Shared<'a>) -> Answer<LiveConsumer<'a>> {
        Ok(LiveConsumer {
            consumer,
            page,
            own_page: own_page(page)?,
        })
    }

    /// See [`RingConsumer::take`].
    pub fn take(&mut self) -> Answer<RingEvent> {
        words::set(&mut self.own_page, IN_PROD, self.page.load(IN_PROD, Ordering::Acquire));
        let index = self.consumer.index();
        let place = place_of(index);
        self.page.copy_in(place.start, &mut self.own_page[place]);
        let taken = self.consumer.take(&mut self.own_page);
        if self.consumer.index() != index {
            self.page.store(IN_CONS, self.consumer.index(), Ordering::Release);
        }
        taken
    }

    /// This end, with its index.
    pub fn consumer(&self) -> &RingConsumer {
        &self.consumer
    }
}
