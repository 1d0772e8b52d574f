//! The XENMOU2 device for a host, its driver for a guest, and the Xen keyboard ring for both, over a library whose every function is
//! proved.
//!
//! A mouse is added, the guest switches the device on, a movement is put, and the driver reads until there is nothing left:
//!
//! ```
//! use thayarqo::codes::{REL_X, REL_Y};
//! use thayarqo::register::{CLIENT_REV, CONTROL, CONTROL_ON};
//! use thayarqo::{Device, Driver, Entry, Event, Geometry, Packet, Refusal, Told};
//!
//! let geometry = Geometry::new(1, 8, 68)?;
//! let mut device = Device::new(geometry);
//! device.add(4, &Entry::new("mouse").offer_rel())?;
//! device.write(CLIENT_REV, 4, 2)?;
//! device.write(CONTROL, 4, CONTROL_ON)?;
//! let moved = Packet::new(4, &[Event::rel(REL_X, 3), Event::rel(REL_Y, -1)])?;
//! device.put_packet(&moved)?;
//!
//! let mut driver = Driver::new(geometry);
//! let mut received = Vec::new();
//! let end = loop {
//!     match driver.step(device.area_mut()) {
//!         Ok(Told::Packet(packet)) => received.push(packet),
//!         Ok(_) => {}
//!         Err(refusal) => break refusal,
//!     }
//! };
//! assert_eq!((received, end), (vec![moved], Refusal::NothingToRead));
//! # Ok::<(), Refusal>(())
//! ```
//!
//! This guest is one of revision 2, as it has written 2 to CLIENT_REV. Guests of [revision 1](Revision::One) are served too: see
//! [`Revision1Driver`].
//!
//! The proofs are about calls one after another: a page changes by these calls only. For a guest that runs at the same time, and may
//! write its pages at any moment, there is the module [`live`].
#![deny(missing_docs, unsafe_code)]

pub mod codes;
mod device;
mod driver;
mod entry;
mod event;
pub mod flags;
mod geometry;
pub mod live;
mod refusal;
pub mod register;
mod revision1;
mod revision1_driver;
mod ring;
mod ring_event;
mod settings;
mod words;

pub use device::{Device, Revision};
pub use driver::{Driver, Told};
pub use entry::{Entry, KNOWN_ENTRY_LENGTH, NAME_LENGTH};
pub use event::{Event, Packet, Source, EVENT_LENGTH, PACKET_EVENTS};
pub use geometry::{Geometry, PAGE_LENGTH};
pub use refusal::{Answer, Refusal};
pub use revision1::{Group, Revision1Event, Revision1Record, GROUP_RECORDS};
pub use revision1_driver::Revision1Driver;
pub use ring::{RingConsumer, RingProducer, RING_PAGE_LENGTH};
pub use ring_event::{RingEvent, RING_EVENT_LENGTH};
pub use settings::{Closed, Settings};
