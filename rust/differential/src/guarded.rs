//! A buffer with guard bytes around it. Two of them are equal only where the guards and the bytes beyond what is lent are too.

const GUARD: usize = 64;
const GUARD_BYTE: u8 = 0xA5;

#[derive(Clone, PartialEq, Eq)]
pub struct Guarded {
    storage: Vec<u8>,
    length: usize,
}

impl Guarded {
    /// All that can be lent is lent at first.
    pub fn new(capacity: usize) -> Guarded {
        Guarded {
            storage: vec![GUARD_BYTE; GUARD + capacity + GUARD],
            length: capacity,
        }
    }

    fn capacity(&self) -> usize {
        self.storage.len() - 2 * GUARD
    }

    /// Lends this many bytes from now on, or as many as there are.
    pub fn set_length(&mut self, length: usize) {
        self.length = length.min(self.capacity());
    }

    /// Lends just these bytes from now on, or as many as have a place.
    pub fn load(&mut self, bytes: &[u8]) {
        self.set_length(bytes.len());
        let length = self.length;
        self.lend().copy_from_slice(&bytes[..length]);
    }

    /// Writes bytes at a place; what doesn't fall into the buffer is left out.
    pub fn scribble(&mut self, at: usize, bytes: &[u8]) {
        for (place, byte) in self.lend().iter_mut().skip(at).zip(bytes) {
            *place = *byte;
        }
    }

    pub fn bytes(&self) -> &[u8] {
        &self.storage[GUARD..GUARD + self.length]
    }

    pub fn lend(&mut self) -> &mut [u8] {
        &mut self.storage[GUARD..GUARD + self.length]
    }

    /// A word of it, or 0 where it is too short.
    pub fn word(&self, at: usize) -> u32 {
        match self.bytes().get(at..at + 4) {
            Some(bytes) => u32::from_le_bytes([bytes[0], bytes[1], bytes[2], bytes[3]]),
            None => 0,
        }
    }

    /// The first byte that differs, counted from the first one that is lent.
    pub fn first_difference(&self, other: &Guarded) -> Option<(isize, u8, u8)> {
        let pairs = self.storage.iter().zip(&other.storage);
        pairs
            .enumerate()
            .find(|(_, (one, another))| one != another)
            .map(|(at, (one, another))| (at as isize - GUARD as isize, *one, *another))
    }
}

#[cfg(test)]
mod tests {
    use super::*;

    #[test]
    fn a_byte_beyond_what_is_lent_is_seen() {
        let mut one = Guarded::new(8);
        let mut another = one.clone();
        assert!(one == another && one.first_difference(&another).is_none());
        one.set_length(4);
        another.set_length(4);
        another.storage[GUARD + 5] = 1;
        assert!(one != another);
        assert_eq!(one.first_difference(&another), Some((5, GUARD_BYTE, 1)));
        another.storage[GUARD - 1] = 2;
        assert_eq!(one.first_difference(&another), Some((-1, GUARD_BYTE, 2)));
    }

    #[test]
    fn a_scribble_stays_inside() {
        let mut buffer = Guarded::new(4);
        buffer.scribble(3, &[7, 7]);
        buffer.scribble(9, &[7]);
        assert_eq!(buffer.first_difference(&Guarded::new(4)), Some((3, 7, GUARD_BYTE)));
        assert_eq!(buffer.storage[GUARD + 4], GUARD_BYTE);
    }
}
