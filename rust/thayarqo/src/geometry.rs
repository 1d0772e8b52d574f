//! The sizes that host and guest agree on.
use crate::refusal::{Answer, Refusal};
use thayarqo_sys as sys;

/// Bytes of a page.
pub const PAGE_LENGTH: usize = 4096;

/// How many event pages, how large a record and how large an entry.
///
/// ```
/// use thayarqo::{Geometry, Refusal};
///
/// let geometry = Geometry::new(1, 8, 68)?;
/// assert_eq!((geometry.ring_length(), geometry.slots()), (511, 60));
/// assert_eq!(Geometry::new(9, 8, 68), Err(Refusal::Invalid));
/// # Ok::<(), Refusal>(())
/// ```
#[derive(Clone, Copy, Debug, PartialEq, Eq)]
pub struct Geometry {
    pages: u32,
    record_size: u32,
    entry_size: u32,
}

impl Geometry {
    /// 1 to 8 pages; records of 8, 16, 32 or 64 bytes; entries of 68 to 256 bytes, a multiple of 4. Anything else is
    /// [`Refusal::Invalid`].
    pub fn new(pages: u32, record_size: u32, entry_size: u32) -> Answer<Geometry> {
        let allowed = (1..=8).contains(&pages)
            && [8, 16, 32, 64].contains(&record_size)
            && (68..=256).contains(&entry_size)
            && entry_size.is_multiple_of(4);
        if !allowed {
            return Err(Refusal::Invalid);
        }
        Ok(Geometry {
            pages,
            record_size,
            entry_size,
        })
    }

    /// Pages of the event area.
    pub fn pages(self) -> u32 {
        self.pages
    }

    /// Bytes of a record.
    pub fn record_size(self) -> u32 {
        self.record_size
    }

    /// Bytes of an entry.
    pub fn entry_size(self) -> u32 {
        self.entry_size
    }

    /// Bytes of the event area.
    pub fn area_length(self) -> usize {
        self.pages as usize * PAGE_LENGTH
    }

    /// Bytes of the BAR: a page of registers, the event area and the entry page.
    pub fn bar_length(self) -> usize {
        self.area_length() + 2 * PAGE_LENGTH
    }

    /// Records of the ring. One fewer can be unread.
    pub fn ring_length(self) -> u32 {
        self.area_length() as u32 / self.record_size - 1
    }

    /// Slots of the entry page.
    pub fn slots(self) -> u32 {
        PAGE_LENGTH as u32 / self.entry_size
    }

    /// Where a record begins in the event area, by its index in the ring.
    pub(crate) fn record_place(self, index: u32) -> usize {
        (index + 1) as usize * self.record_size as usize
    }

    /// Where a slot's entry begins in the entry page.
    pub(crate) fn entry_place(self, slot: u32) -> usize {
        slot as usize * self.entry_size as usize
    }

    pub(crate) fn numbers(self) -> sys::Geometry {
        sys::Geometry {
            pages: self.pages,
            record_size: self.record_size,
            entry_size: self.entry_size,
        }
    }
}
