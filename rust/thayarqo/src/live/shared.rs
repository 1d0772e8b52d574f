//! Memory that others read and write at any moment.
use std::fmt;
use std::sync::atomic::{AtomicU32, Ordering};

/// Memory that is shared with a running guest, in words. All accesses are atomic.
#[derive(Clone, Copy)]
pub struct Shared<'a>(&'a [AtomicU32]);

impl<'a> Shared<'a> {
    /// Words that this program shares between its threads.
    pub fn new(words: &'a [AtomicU32]) -> Shared<'a> {
        Shared(words)
    }

    /// Words of a mapping, as `mmap` hands it out.
    ///
    /// # Safety
    ///
    /// `start` is a multiple of 4, and `words` words from there can be read and written for all of `'a`. This program accesses them
    /// in no other way than by atomic words meanwhile. What other programs and guests do there is up to them.
    #[allow(unsafe_code)]
    pub unsafe fn from_raw(start: *mut u32, words: usize) -> Shared<'a> {
        // SAFETY: the caller promises just this. An AtomicU32 is laid out as a u32, and may be changed behind a shared reference.
        Shared(unsafe { std::slice::from_raw_parts(start.cast(), words) })
    }

    /// Bytes of this memory.
    pub fn length(self) -> usize {
        4 * self.0.len()
    }

    /// The word at a place in bytes, which is a multiple of 4. Every access comes by here.
    fn word(self, place: usize) -> &'a AtomicU32 {
        #[cfg(test)]
        super::interleaving::pause();
        &self.0[place / 4]
    }

    /// The little-endian number at a place.
    pub(super) fn load(self, place: usize, order: Ordering) -> u32 {
        u32::from_le(self.word(place).load(order))
    }

    pub(super) fn store(self, place: usize, number: u32, order: Ordering) {
        self.word(place).store(number.to_le(), order);
    }

    /// Replaces a number with release ordering, unless it has been changed meanwhile.
    pub(super) fn advance(self, place: usize, from: u32, to: u32) {
        let (from, to) = (from.to_le(), to.to_le());
        let _ = self
            .word(place)
            .compare_exchange(from, to, Ordering::Release, Ordering::Relaxed);
    }

    /// Copies whole words from a place.
    pub(super) fn copy_in(self, place: usize, bytes: &mut [u8]) {
        for (index, four) in bytes.chunks_exact_mut(4).enumerate() {
            let word = self.word(place + 4 * index).load(Ordering::Relaxed);
            four.copy_from_slice(&word.to_ne_bytes());
        }
    }

    /// Copies whole words to a place.
    pub(super) fn copy_out(self, place: usize, bytes: &[u8]) {
        for (index, four) in bytes.chunks_exact(4).enumerate() {
            let word = u32::from_ne_bytes(four.try_into().expect("chunks of four"));
            self.word(place + 4 * index).store(word, Ordering::Relaxed);
        }
    }
}

impl fmt::Debug for Shared<'_> {
    fn fmt(&self, out: &mut fmt::Formatter) -> fmt::Result {
        write!(out, "Shared({} bytes)", self.length())
    }
}
