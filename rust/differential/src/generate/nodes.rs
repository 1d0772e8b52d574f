//! Node settings: names that are meant, names that nearly are, and texts at the edges.

use super::Action;
use crate::call::Call;
use crate::random::Random;
use crate::world::Change;
use thayarqo_model::settings::{Parameter, Settings};

/// All names of kbdif.h; the first thirteen are meant.
const NAMES: [&str; 17] = [
    "feature-disable-keyboard",
    "feature-disable-pointer",
    "feature-abs-pointer",
    "feature-multi-touch",
    "feature-raw-pointer",
    "request-abs-pointer",
    "request-multi-touch",
    "request-raw-pointer",
    "width",
    "height",
    "multi-touch-num-contacts",
    "multi-touch-width",
    "multi-touch-height",
    "unique-id",
    "event-channel",
    "page-gref",
    "page-ref",
];

const TEXTS: [&str; 18] = [
    "",
    "0",
    "1",
    "2",
    "00",
    "01",
    "10",
    "32",
    "33",
    "+1",
    "-1",
    " 1",
    "1 ",
    "0x1",
    "4294967295",
    "4294967296",
    "9999999999",
    "10000000000",
];

pub fn next(random: &mut Random) -> Action {
    match random.below(16) {
        0..=2 => Action::Call(Call::Close),
        3 if random.once_in(8) => Action::Call(Call::FreshSettings),
        4 if random.once_in(4) => Action::Change(Change::Settings(any_settings(random))),
        _ => {
            let (name, value) = node(random);
            Action::Call(Call::Node { name, value })
        }
    }
}

/// A real name with a right value half of the time, so that settings come together.
fn node(random: &mut Random) -> (Vec<u8>, Vec<u8>) {
    let name = random.pick(&NAMES);
    let is_flag = name.starts_with("feature") || name.starts_with("request");
    let right = match is_flag {
        true => random.pick(&["1", "1", "0"]).to_string(),
        false if random.once_in(2) => (1 + random.below(40)).to_string(),
        false => random.word().to_string(),
    };
    match random.below(8) {
        0..=3 => (name.into(), right.into()),
        4 => (spoiled(random, name), right.into()),
        5 => (name.into(), spoiled(random, &right)),
        6 => (name.into(), random.pick(&TEXTS).into()),
        _ => {
            let (name_length, length) = (random.below(30), random.below(14));
            (random.bytes(name_length as usize), random.bytes(length as usize))
        }
    }
}

/// A text with one byte changed, left out or put in.
fn spoiled(random: &mut Random, text: &str) -> Vec<u8> {
    let mut bytes = text.as_bytes().to_vec();
    let at = random.below(bytes.len() as u32 + 1) as usize;
    let byte = random.pick(b"0159-ah/:\0 \xB1");
    match random.below(4) {
        0 => bytes.insert(at, byte),
        1 => bytes.truncate(at),
        _ => match bytes.get_mut(at) {
            Some(place) if random.once_in(2) => *place ^= 0x20,
            Some(place) => *place = byte,
            None => bytes.push(byte),
        },
    }
    bytes
}

/// Settings as a caller may pass them: any flags, numbers that weren't given.
fn any_settings(random: &mut Random) -> Settings {
    let mut flag = || random.once_in(2);
    let mut settings = Settings {
        feature_disable_keyboard: flag(),
        feature_disable_pointer: flag(),
        feature_abs_pointer: flag(),
        feature_multi_touch: flag(),
        feature_raw_pointer: flag(),
        request_abs_pointer: flag(),
        request_multi_touch: flag(),
        request_raw_pointer: flag(),
        ..Settings::fresh()
    };
    for parameter in [
        &mut settings.width,
        &mut settings.height,
        &mut settings.contacts,
        &mut settings.touch_width,
        &mut settings.touch_height,
    ] {
        *parameter = Parameter {
            given: !random.once_in(4),
            value: random.near(&[0, 1, 32, u32::MAX]),
        };
    }
    settings
}
