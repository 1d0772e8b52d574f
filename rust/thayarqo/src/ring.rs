//! Both ends of the keyboard ring. The ring's page begins as zeros, and both ends with an index of 0.
use crate::refusal::{Answer, Refusal};
use crate::ring_event::RingEvent;
use thayarqo_sys::{self as sys, safe};

/// Bytes of the ring's page.
pub const RING_PAGE_LENGTH: usize = sys::RING_PAGE_LENGTH;

fn check_contact_limit(contact_limit: u32) -> Answer<()> {
    match contact_limit {
        1..=32 => Ok(()),
        _ => Err(Refusal::Invalid),
    }
}

/// The end that puts events: the back end, so the host.
///
/// ```
/// use thayarqo::{Refusal, RingConsumer, RingEvent, RingProducer, RING_PAGE_LENGTH};
///
/// let mut page = [0; RING_PAGE_LENGTH];
/// let (mut producer, mut consumer) = (RingProducer::new(1)?, RingConsumer::new(1)?);
/// let moved = RingEvent::Motion { x: 3, y: -1, z: 0 };
/// producer.put(&mut page, moved)?;
/// assert_eq!(consumer.take(&mut page), Ok(moved));
/// assert_eq!(consumer.take(&mut page), Err(Refusal::NothingToRead));
/// # Ok::<(), Refusal>(())
/// ```
#[derive(Clone, Debug, PartialEq, Eq)]
pub struct RingProducer {
    in_prod: u32,
    contact_limit: u32,
}

impl RingProducer {
    /// At the start of the ring. The contact limit is 1 to 32, see [`Closed::contact_limit`]; any other is [`Refusal::Invalid`].
    ///
    /// [`Closed::contact_limit`]: crate::Closed::contact_limit
    pub fn new(contact_limit: u32) -> Answer<RingProducer> {
        check_contact_limit(contact_limit)?;
        Ok(RingProducer {
            in_prod: 0,
            contact_limit,
        })
    }

    /// Puts an event. [`Refusal::NoRoom`] where 51 haven't been taken yet.
    pub fn put(&mut self, page: &mut [u8], event: RingEvent) -> Answer<()> {
        self.put_bytes(page, &event.encode()?)
    }

    /// Puts an event's bytes, which have to be well formed.
    pub fn put_bytes(&mut self, page: &mut [u8], event: &[u8]) -> Answer<()> {
        Refusal::check(safe::ring_put(page, &mut self.in_prod, self.contact_limit, event))
    }

    /// How many events have been put, modulo 2^32. This index is trusted, and not the one in the page.
    pub fn index(&self) -> u32 {
        self.in_prod
    }
}

/// The end that takes events: the front end, so the guest.
#[derive(Clone, Debug, PartialEq, Eq)]
pub struct RingConsumer {
    in_cons: u32,
    contact_limit: u32,
}

impl RingConsumer {
    /// At the start of the ring. The contact limit is 1 to 32, see [`Closed::contact_limit`]; any other is [`Refusal::Invalid`].
    ///
    /// [`Closed::contact_limit`]: crate::Closed::contact_limit
    pub fn new(contact_limit: u32) -> Answer<RingConsumer> {
        check_contact_limit(contact_limit)?;
        Ok(RingConsumer {
            in_cons: 0,
            contact_limit,
        })
    }

    /// Takes an event. [`Refusal::Malformed`] tells of one that has no meaning and is consumed all the same.
    pub fn take(&mut self, page: &mut [u8]) -> Answer<RingEvent> {
        RingEvent::found(safe::ring_take(page, &mut self.in_cons, self.contact_limit))
    }

    /// How many events have been taken, modulo 2^32. This index is trusted, and not the one in the page.
    pub fn index(&self) -> u32 {
        self.in_cons
    }
}
