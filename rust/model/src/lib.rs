//! An independent model of the XENMOU2 device, the drivers of its guests in both revisions, the Xen keyboard ring and its node settings.
//!
//! It is written from the papers alone, so that the proved library can be compared with a second reading of them. It is straight and
//! slow: every rule stands where a reader of the papers looks for it. Any state, any length and any number gets an answer.
#![forbid(unsafe_code)]

pub mod access;
pub mod answer;
pub mod bytes;
pub mod closing;
pub mod control;
pub mod device;
pub mod driver;
pub mod entries;
mod fault;
pub mod geometry;
pub mod guest;
pub mod hotplug;
pub mod packet;
pub mod records;
pub mod revision1;
pub mod revision1_reader;
pub mod ring;
pub mod ring_event;
pub mod settings;

pub use fault::Fault;

/// The rules of the papers, or one of the wrong builds. Every call is a method of it.
#[derive(Clone, Copy, Debug, Default)]
pub struct Model {
    pub fault: Fault,
}

impl Model {
    /// Whether this is the wrong build with that fault.
    pub(crate) fn has(self, fault: Fault) -> bool {
        self.fault == fault
    }
}
