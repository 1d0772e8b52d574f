//! The sizes that every call is told, and what follows from them.

/// Bytes of a page.
pub const PAGE: usize = 4096;

/// Event pages, bytes of a record, bytes of an entry.
#[derive(Clone, Copy, Debug, PartialEq, Eq)]
pub struct Geometry {
    pub pages: u32,
    pub record_size: u32,
    pub entry_size: u32,
}

impl Geometry {
    /// The other functions are meant for allowed sizes only.
    pub fn is_allowed(self) -> bool {
        (1..=8).contains(&self.pages)
            && [8, 16, 32, 64].contains(&self.record_size)
            && (68..=256).contains(&self.entry_size)
            && self.entry_size.is_multiple_of(4)
    }

    pub fn area_length(self) -> usize {
        self.pages as usize * PAGE
    }

    /// The registers' page, the event area, the entry page.
    pub fn bar_length(self) -> u64 {
        (u64::from(self.pages) + 2) * PAGE as u64
    }

    /// The whole area is one ring; its first place holds the pointers.
    pub fn ring_length(self) -> u32 {
        self.pages * 4096 / self.record_size - 1
    }

    pub fn slots(self) -> u32 {
        4096 / self.entry_size
    }

    /// Where a record begins in the event area.
    pub fn record_at(self, index: u32) -> usize {
        self.record_size as usize * (index as usize + 1)
    }

    /// Where an entry begins in the entry page.
    pub fn entry_at(self, slot: u32) -> usize {
        self.entry_size as usize * slot as usize
    }
}

#[cfg(test)]
mod tests {
    use super::*;

    fn geometry(pages: u32, record_size: u32, entry_size: u32) -> Geometry {
        Geometry {
            pages,
            record_size,
            entry_size,
        }
    }

    #[test]
    fn ring_lengths_of_the_paper() {
        assert_eq!(geometry(1, 8, 68).ring_length(), 511);
        assert_eq!(geometry(1, 8, 68).record_at(510), 4088);
        assert_eq!(geometry(1, 64, 68).ring_length(), 63);
        assert_eq!(geometry(8, 8, 68).ring_length(), 4095);
    }

    #[test]
    fn slots_of_the_paper() {
        assert_eq!(geometry(1, 8, 68).slots(), 60);
        assert_eq!(geometry(1, 8, 72).slots(), 56);
        assert_eq!(geometry(1, 8, 256).slots(), 16);
        assert_eq!(geometry(1, 8, 68).entry_at(59), 4012);
    }

    #[test]
    fn edges_of_what_is_allowed() {
        assert!(geometry(1, 8, 68).is_allowed());
        assert!(geometry(8, 64, 256).is_allowed());
        for (pages, record_size, entry_size) in [
            (0, 8, 68),
            (9, 8, 68),
            (1, 0, 68),
            (1, 24, 68),
            (1, 128, 68),
            (1, 8, 64),
            (1, 8, 70),
            (1, 8, 260),
            (u32::MAX, u32::MAX, u32::MAX),
        ] {
            assert!(!geometry(pages, record_size, entry_size).is_allowed());
        }
    }
}
