//! Registers and codes by their names.
use crate::words::{number, Parsed};
use thayarqo::codes::{code_named, EV_ABS, EV_KEY, EV_REL};
use thayarqo::{register, Entry};

pub const REGISTERS: [(&str, u64); 11] = [
    ("MAGIC", register::MAGIC),
    ("REV", register::REV),
    ("CONTROL", register::CONTROL),
    ("EVENT_SIZE", register::EVENT_SIZE),
    ("NPAGES", register::NPAGES),
    ("ACCELERATION", register::ACCELERATION),
    ("ISR", register::ISR),
    ("CONF_SIZE", register::CONF_SIZE),
    ("CLIENT_REV", register::CLIENT_REV),
    ("READ_PTR", register::READ_PTR),
    ("WRITE_PTR", register::WRITE_PTR),
];

/// The offset of a register, or any other one as a number.
pub fn offset(text: &str) -> Parsed<u64> {
    let named = REGISTERS.iter().find(|(name, _)| *name == text);
    match named {
        Some((_, offset)) => Ok(*offset),
        None if text.starts_with(|first: char| first.is_ascii_alphabetic()) => Err(format!("{text} is no register")),
        None => number(text, "OFFSET", 0..=u64::MAX.into()).map(|number| number as u64),
    }
}

/// The type and code of a name, or of two numbers with a colon between them.
pub fn code(text: &str) -> Parsed<(u16, u16)> {
    if let Some(found) = code_named(text) {
        return Ok(found);
    }
    let Some((kind, code)) = text.split_once(':') else {
        return Err(format!("{text} is no code"));
    };
    let half = |text, what| number(text, what, 0..=u16::MAX.into()).map(|number| number as u16);
    Ok((half(kind, "TYPE")?, half(code, "CODE")?))
}

/// The entry with one more code on offer.
pub fn offer(entry: Entry, text: &str) -> Parsed<Entry> {
    if text == "REL" {
        return Ok(entry.offer_rel());
    }
    let (kind, code) = code(text)?;
    let offered = match kind {
        EV_REL => Ok(entry.offer_rel()),
        EV_ABS => entry.offer_abs(code),
        EV_KEY => entry.offer_key(code),
        _ => Ok(entry),
    };
    let offered = offered.ok().filter(|entry| entry.offers(kind, code));
    offered.ok_or_else(|| format!("{text} can't be offered"))
}

#[cfg(test)]
mod tests {
    use super::*;
    use thayarqo::codes::{ABS_X, BTN_TOUCH};

    #[test]
    fn offsets_are_registers_or_numbers() {
        assert_eq!(offset("MAGIC"), Ok(0));
        assert_eq!(offset("CLIENT_REV"), Ok(0x118));
        assert_eq!(offset("0x1004"), offset("WRITE_PTR"));
        assert_eq!(offset("18446744073709551615"), Ok(u64::MAX));
        assert_eq!(offset("magic"), Err("magic is no register".into()));
        assert!(offset("-4").is_err());
    }

    #[test]
    fn codes_are_names_or_two_numbers() {
        assert_eq!(code("ABS_X"), Ok((EV_ABS, ABS_X)));
        assert_eq!(code("1:0x14a"), Ok((EV_KEY, BTN_TOUCH)));
        assert_eq!(code("SNY_REPORT"), Err("SNY_REPORT is no code".into()));
        assert!(code("3:65536").is_err());
    }

    #[test]
    fn an_entry_offers_what_has_a_bit() {
        let entry = Entry::new("pad");
        assert_eq!(offer(entry, "REL"), Ok(entry.offer_rel()));
        assert_eq!(offer(entry, "REL_X"), Ok(entry.offer_rel()));
        assert_eq!(offer(entry, "3:63"), Ok(entry.offer_abs(63).expect("a code below 64")));
        let touch = entry.offer_key(BTN_TOUCH).expect("a button's code");
        assert_eq!(offer(entry, "BTN_TOUCH"), Ok(touch));
        for text in ["3:64", "1:0xff", "1:0x160", "2:32", "SYN_REPORT", "DEV_SET", "6:0"] {
            assert_eq!(offer(entry, text), Err(format!("{text} can't be offered")));
        }
    }
}
