//! Device entries: the masks of one, and the events that it offers.

use crate::bytes::word;
use crate::records::{Event, EV_ABS, EV_KEY, EV_REL, EV_SYN, SYN_MT_REPORT};
use crate::{Fault, Model};

/// Bytes of an entry that carry its meaning.
pub const KNOWN_ENTRY: usize = 68;

const EVBITS: usize = 40;
const ABSBITS: usize = 44;
const RELBITS: usize = 52;
const BTNBITS: usize = 56;

const FIRST_BUTTON: u32 = 0x100;
const BUTTONS: u32 = 96;

/// A bit of a mask of several words.
fn bit(entry: &[u8], mask: usize, number: u32) -> bool {
    word(entry, mask + number as usize / 32 * 4) >> (number % 32) & 1 == 1
}

/// Bit 0 of evbits tells that an entry is there.
pub(crate) fn is_present(entry: &[u8]) -> bool {
    bit(entry, EVBITS, 0)
}

impl Model {
    /// Whether a slot with this entry may send this event. relbits isn't consulted.
    pub(crate) fn is_offered(self, entry: &[u8], event: Event) -> bool {
        let code = u32::from(event.code);
        let code_is_offered = match event.kind {
            EV_SYN => event.code == SYN_MT_REPORT,
            EV_KEY => self.is_button_offered(entry, code),
            EV_REL => code < 32 && (!self.has(Fault::RelbitsConsulted) || bit(entry, RELBITS, code)),
            EV_ABS => code < 64 && self.mask_bit(entry, ABSBITS, code),
            _ => false,
        };
        code_is_offered && (self.has(Fault::TypeBitNotConsulted) || bit(entry, EVBITS, u32::from(event.kind)))
    }

    fn is_button_offered(self, entry: &[u8], code: u32) -> bool {
        let first = match self.has(Fault::ButtonBitsFromZero) {
            true => 0,
            false => FIRST_BUTTON,
        };
        match code.checked_sub(first) {
            Some(number) => number < BUTTONS && self.mask_bit(entry, BTNBITS, number),
            None => false,
        }
    }

    /// A code's bit of a mask.
    fn mask_bit(self, entry: &[u8], mask: usize, number: u32) -> bool {
        match self.has(Fault::MaskWordBy64) {
            true => bit(entry, mask + number as usize / 64 * 4, number % 32),
            false => bit(entry, mask, number),
        }
    }
}

#[cfg(test)]
mod tests {
    use super::*;
    use crate::bytes::put_word;

    fn entry(evbits: u32, at: usize, mask: u32) -> [u8; KNOWN_ENTRY] {
        let mut entry = [0; KNOWN_ENTRY];
        put_word(&mut entry, EVBITS, evbits);
        put_word(&mut entry, at, mask);
        entry
    }

    fn offers(entry: &[u8], kind: u16, code: u16) -> bool {
        Model::default().is_offered(entry, Event::new(kind, code, 1))
    }

    #[test]
    fn multi_touch_x_is_bit_21_of_the_second_word() {
        let touch = entry(0b1001, ABSBITS + 4, 1 << 21);
        assert!(offers(&touch, EV_ABS, 0x35));
        assert!(!offers(&touch, EV_ABS, 0x36));
        assert!(!offers(&touch, EV_ABS, 64));
        assert!(!offers(&entry(0b0001, ABSBITS + 4, 1 << 21), EV_ABS, 0x35));
    }

    #[test]
    fn left_and_right_button_are_0x30000() {
        let mouse = entry(0b0011, BTNBITS, 0x30000);
        assert!(offers(&mouse, EV_KEY, 0x110));
        assert!(offers(&mouse, EV_KEY, 0x111));
        assert!(!offers(&mouse, EV_KEY, 0x112));
        assert!(!offers(&mouse, EV_KEY, 0x10A));
        assert!(!offers(&mouse, EV_KEY, 0x10));
        let all = entry(0b0011, BTNBITS + 8, u32::MAX);
        assert!(offers(&all, EV_KEY, 0x15F));
        assert!(!offers(&all, EV_KEY, 0x160));
    }

    #[test]
    fn relative_codes_need_no_mask() {
        let wheel = entry(0b0101, BTNBITS, 0);
        assert!(offers(&wheel, EV_REL, 31));
        assert!(!offers(&wheel, EV_REL, 32));
    }

    #[test]
    fn of_syn_the_touch_report_alone() {
        let any = entry(u32::MAX, BTNBITS, u32::MAX);
        assert!(offers(&any, EV_SYN, SYN_MT_REPORT));
        assert!(!offers(&any, EV_SYN, 0));
        assert!(!offers(&any, EV_SYN, 3));
        assert!(!offers(&any, 6, 1));
        assert!(!offers(&any, 32, 2));
    }
}
