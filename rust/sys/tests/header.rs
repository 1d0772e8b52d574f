//! The constants are those of the headers: all of them, with the same numbers.
use std::collections::BTreeMap;
use thayarqo_sys::*;

const HEADERS: &str = concat!(
    include_str!("../../../include/thayarqo.h"),
    include_str!("../../../include/thayarqo_answers.h"),
    include_str!("../../../include/thayarqo_geometry.h"),
    include_str!("../../../include/thayarqo_revision1.h"),
    include_str!("../../../include/thayarqo_ring.h"),
    include_str!("../../../include/thayarqo_settings.h"),
);

/// Constants by their names.
macro_rules! named {
    ($($name:ident)*) => {
        BTreeMap::from([$((stringify!($name), $name as u64)),*])
    };
}

fn constants() -> BTreeMap<&'static str, u64> {
    let mut all = named! {
        DONE INVALID BAD_ACCESS READ_ONLY NO_REGISTER DEVICE_OFF BAD_SLOT NO_ROOM NOT_OFFERED MALFORMED BAD_INDEX
        NOTHING_TO_READ BAD_SETTING
        NO_SLOT UNKNOWN_SLOT ALL_SLOTS
        PACKET_LENGTH ENTRY_PAGE_LENGTH KNOWN_ENTRY_LENGTH RING_PAGE_LENGTH RING_EVENT_LENGTH
    };
    all.extend(named! {
        TOLD_NOTHING TOLD_GAP TOLD_EMPTY_REPORT TOLD_PACKET TOLD_SET TOLD_CONF TOLD_RESET TOLD_RESET_ALL
        FLAG_ABSOLUTE FLAG_RELATIVE FLAG_FENCE FLAG_LEFT_BUTTON_DOWN FLAG_LEFT_BUTTON_UP FLAG_RIGHT_BUTTON_DOWN
        FLAG_RIGHT_BUTTON_UP FLAG_MIDDLE_BUTTON_DOWN FLAG_MIDDLE_BUTTON_UP FLAG_HWHEEL FLAG_VWHEEL
        RING_UNKNOWN RING_MOTION RING_KEY RING_POSITION RING_TOUCH
        TOUCH_DOWN TOUCH_UP TOUCH_MOTION TOUCH_SYN TOUCH_SHAPE TOUCH_ORIENT
    });
    all
}

/// A decimal or hexadecimal number, as a header writes it.
fn number(text: &str) -> Option<u64> {
    let text = text.trim_start_matches("UINT32_C(").trim_end_matches([',', ')']);
    match text.strip_prefix("0x") {
        Some(digits) => u64::from_str_radix(digits, 16).ok(),
        None => text.parse().ok(),
    }
}

/// The constant of a line, whether it is defined or in an enum.
fn constant(line: &str) -> Option<(&str, u64)> {
    let line = line.trim_start().trim_start_matches("#define ");
    let (name, rest) = line.strip_prefix("THAYARQO_")?.split_once(' ')?;
    let rest = rest.trim_start_matches("= ");
    Some((name, number(rest.split(' ').next()?)?))
}

#[test]
fn every_constant_is_that_of_a_header() {
    let headers: BTreeMap<&str, u64> = HEADERS.lines().filter_map(constant).collect();
    assert_eq!(constants(), headers);
}
