//! The names of codes, and the codes of names.
use thayarqo::codes::{code_name, code_named, ABS_MT_POSITION_X, DEV_SET, EV_ABS, EV_DEV};

#[test]
fn a_name_stands_for_its_code() {
    let pairs = (0..8).flat_map(|kind| (0..0x200).map(move |code| (kind, code)));
    let named: Vec<_> = pairs
        .filter_map(|(kind, code)| Some((kind, code, code_name(kind, code)?)))
        .collect();
    for (kind, code, name) in &named {
        assert_eq!(code_named(name), Some((*kind, *code)), "{name}");
    }
    assert!(named.contains(&(EV_ABS, ABS_MT_POSITION_X, "ABS_MT_POSITION_X")));
    assert!(named.contains(&(EV_DEV, DEV_SET, "DEV_SET")));
}

#[test]
fn other_words_stand_for_none() {
    for word in ["", "abs_x", "ABS_X ", "EV_ABS", "SNY_REPORT"] {
        assert_eq!(code_named(word), None, "{word:?}");
    }
}
