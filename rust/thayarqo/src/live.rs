//! Guests that run at the same time.
//!
//! The proofs say what calls do when nobody else writes the pages meanwhile. A running guest can write its pages at any moment, so
//! here each end keeps pages of its own that nobody else sees, and a call goes:
//!
//! 1. load the other end's index, once, into the own page;
//! 2. copy in the records that are about to be read (the reading end alone);
//! 3. run the proved call on the own pages;
//! 4. copy out the bytes that it wrote (the writing end alone);
//! 5. publish the own index.
//!
//! Indices are loaded with acquire and published with release ordering, so a record is seen whole once it is announced, and isn't
//! overwritten before its reader has let go of it. A guest that scribbles over its pages can make the host answer
//! [`BadIndex`](crate::Refusal::BadIndex) or [`NoRoom`](crate::Refusal::NoRoom) by its read pointer, and changes nothing else but
//! what it reads itself.
//!
//! A switch-on sets both pointers of the ring to 0, and the shared words don't tell one start from another. So a guest that switches
//! the device off and on lets its driver rest meanwhile; [`LiveDriver::restart`] and [`LiveRevision1Driver::restart`] say what can go
//! wrong otherwise.
//!
//! ```
//! use std::sync::atomic::AtomicU32;
//! use std::thread;
//! use thayarqo::codes::REL_X;
//! use thayarqo::live::{LiveDevice, LiveDriver, Shared};
//! use thayarqo::register::{CLIENT_REV, CONTROL, CONTROL_ON};
//! use thayarqo::{Entry, Event, Geometry, Packet, Refusal, Told};
//!
//! let geometry = Geometry::new(1, 8, 68)?;
//! let words: Vec<AtomicU32> = (0..2048).map(|_| AtomicU32::new(0)).collect();
//! let (area, page) = words.split_at(1024);
//! let mut device = LiveDevice::new(geometry, Shared::new(area), Shared::new(page))?;
//! let mut driver = LiveDriver::new(geometry, Shared::new(area), Shared::new(page))?;
//! device.add(4, &Entry::new("mouse").offer_rel())?;
//! device.write(CLIENT_REV, 4, 2)?;
//! device.write(CONTROL, 4, CONTROL_ON)?;
//!
//! let moved = Packet::new(4, &[Event::rel(REL_X, 3)])?;
//! thread::scope(|scope| {
//!     scope.spawn(|| {
//!         while driver.step() != Ok(Told::Packet(moved)) {
//!             thread::yield_now();
//!         }
//!     });
//!     device.put_packet(&moved)
//! })?;
//! # Ok::<(), Refusal>(())
//! ```
mod device;
mod driver;
#[cfg(test)]
mod interleaving;
mod reader;
mod revision1_driver;
mod ring;
mod shared;

pub use device::LiveDevice;
pub use driver::LiveDriver;
pub use revision1_driver::LiveRevision1Driver;
pub use ring::{LiveConsumer, LiveProducer};
pub use shared::Shared;

use crate::geometry::{Geometry, PAGE_LENGTH};
use crate::refusal::{Answer, Refusal};

/// Where READ_PTR and WRITE_PTR stand in the event area.
const READ_PTR: usize = 0;
const WRITE_PTR: usize = 4;

/// A WRITE_PTR that no geometry allows: a driver reads nothing while it stands.
const CLOSED: u32 = u32::MAX;

/// Bytes of a record that the device writes.
const RECORD_LENGTH: usize = crate::event::EVENT_LENGTH;

/// Whether the event area has the length that the geometry asks for.
fn check_area(geometry: Geometry, area: Shared) -> Answer<()> {
    check_length(area, geometry.area_length())
}

/// Whether the entry page is a page.
fn check_page(page: Shared) -> Answer<()> {
    check_length(page, PAGE_LENGTH)
}

fn check_length(memory: Shared, length: usize) -> Answer<()> {
    if memory.length() != length {
        return Err(Refusal::Invalid);
    }
    Ok(())
}
