//! Device entries: what a slot is called, and which events it offers.
use crate::codes::{BTN_0, EV_ABS, EV_KEY, EV_REL, EV_SYN, SYN_MT_REPORT};
use crate::refusal::{Answer, Refusal};
use std::ops::Range;
use thayarqo_sys as sys;

/// Bytes of an entry that have a meaning.
pub const KNOWN_ENTRY_LENGTH: usize = sys::KNOWN_ENTRY_LENGTH;

/// Bytes of a name.
pub const NAME_LENGTH: usize = 40;

const EVBITS: usize = 40;
const ABSBITS: usize = 44;
const BTNBITS: usize = 56;

/// The codes that can be offered.
const REL_CODES: u16 = 32;
const ABS_CODES: u16 = 64;
const KEY_CODES: Range<u16> = BTN_0..BTN_0 + 96;

/// The entry of a slot.
///
/// ```
/// use thayarqo::codes::{ABS_X, BTN_LEFT, BTN_RIGHT, EV_ABS, EV_KEY};
/// use thayarqo::{Entry, Refusal};
///
/// let mouse = Entry::new("mouse").offer_rel().offer_key(BTN_LEFT)?.offer_key(BTN_RIGHT)?;
/// assert_eq!(mouse.name(), b"mouse");
/// assert!(mouse.offers(EV_KEY, BTN_LEFT) && !mouse.offers(EV_ABS, ABS_X));
/// # Ok::<(), Refusal>(())
/// ```
#[derive(Clone, Copy, Debug, PartialEq, Eq)]
pub struct Entry([u8; KNOWN_ENTRY_LENGTH]);

impl Entry {
    /// An entry that offers packets, but no event yet. The name is cut after [`NAME_LENGTH`] bytes.
    #[must_use]
    pub fn new(name: &str) -> Entry {
        let mut entry = Entry([0; KNOWN_ENTRY_LENGTH]);
        let length = name.len().min(NAME_LENGTH);
        entry.0[..length].copy_from_slice(&name.as_bytes()[..length]);
        entry.offer(EV_SYN)
    }

    /// With movements, of every code below 32: an entry doesn't choose among them.
    #[must_use]
    pub fn offer_rel(self) -> Entry {
        self.offer(EV_REL)
    }

    /// With positions of a code, below 64. An entry has no bit for another code: [`Refusal::Malformed`].
    pub fn offer_abs(self, code: u16) -> Answer<Entry> {
        if code >= ABS_CODES {
            return Err(Refusal::Malformed);
        }
        Ok(self.offer(EV_ABS).with_bit(ABSBITS, code))
    }

    /// With a button, from `BTN_0` to 0x15F. An entry has no bit for another code: [`Refusal::Malformed`].
    pub fn offer_key(self, code: u16) -> Answer<Entry> {
        if !KEY_CODES.contains(&code) {
            return Err(Refusal::Malformed);
        }
        Ok(self.offer(EV_KEY).with_bit(BTNBITS, code - BTN_0))
    }

    fn offer(self, kind: u16) -> Entry {
        self.with_bit(EVBITS, kind)
    }

    /// Bits are counted through little-endian words, so through the bytes.
    fn with_bit(mut self, place: usize, bit: u16) -> Entry {
        self.0[place + usize::from(bit / 8)] |= 1 << (bit % 8);
        self
    }

    /// Whether a slot with this entry may send events of a type and code.
    pub fn offers(&self, kind: u16, code: u16) -> bool {
        let is_among_codes = match kind {
            EV_SYN => code == SYN_MT_REPORT,
            EV_KEY => KEY_CODES.contains(&code) && self.has_bit(BTNBITS, code - BTN_0),
            EV_REL => code < REL_CODES,
            EV_ABS => code < ABS_CODES && self.has_bit(ABSBITS, code),
            _ => false,
        };
        is_among_codes && self.has_bit(EVBITS, kind)
    }

    fn has_bit(&self, place: usize, bit: u16) -> bool {
        self.0[place + usize::from(bit / 8)] >> (bit % 8) & 1 == 1
    }

    /// The name, without the zeros that fill it up.
    pub fn name(&self) -> &[u8] {
        let name = &self.0[..NAME_LENGTH];
        let length = name.iter().position(|byte| *byte == 0);
        &name[..length.unwrap_or(NAME_LENGTH)]
    }

    /// The bytes as they stand in the entry page.
    pub fn bytes(&self) -> &[u8; KNOWN_ENTRY_LENGTH] {
        &self.0
    }

    /// The entry of bytes from an entry page.
    pub fn of_bytes(bytes: [u8; KNOWN_ENTRY_LENGTH]) -> Entry {
        Entry(bytes)
    }
}
