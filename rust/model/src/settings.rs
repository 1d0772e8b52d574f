//! Node settings: one node, a name and a value.

use crate::answer::{BAD_SETTING, DONE};
use crate::{Fault, Model};

/// A number that a node gave, or not yet.
#[derive(Clone, Copy, Debug, Default, PartialEq, Eq)]
pub struct Parameter {
    pub given: bool,
    pub value: u32,
}

/// The nodes that are meant. A flag that no node gave is 0.
#[derive(Clone, Copy, Debug, Default, PartialEq, Eq)]
pub struct Settings {
    pub feature_disable_keyboard: bool,
    pub feature_disable_pointer: bool,
    pub feature_abs_pointer: bool,
    pub feature_multi_touch: bool,
    pub feature_raw_pointer: bool,
    pub request_abs_pointer: bool,
    pub request_multi_touch: bool,
    pub request_raw_pointer: bool,
    pub width: Parameter,
    pub height: Parameter,
    pub contacts: Parameter,
    pub touch_width: Parameter,
    pub touch_height: Parameter,
}

impl Settings {
    pub fn fresh() -> Settings {
        Settings::default()
    }

    fn flag(&mut self, name: &[u8]) -> Option<&mut bool> {
        Some(match name {
            b"feature-disable-keyboard" => &mut self.feature_disable_keyboard,
            b"feature-disable-pointer" => &mut self.feature_disable_pointer,
            b"feature-abs-pointer" => &mut self.feature_abs_pointer,
            b"feature-multi-touch" => &mut self.feature_multi_touch,
            b"feature-raw-pointer" => &mut self.feature_raw_pointer,
            b"request-abs-pointer" => &mut self.request_abs_pointer,
            b"request-multi-touch" => &mut self.request_multi_touch,
            b"request-raw-pointer" => &mut self.request_raw_pointer,
            _ => return None,
        })
    }

    fn parameter(&mut self, name: &[u8]) -> Option<&mut Parameter> {
        Some(match name {
            b"width" => &mut self.width,
            b"height" => &mut self.height,
            b"multi-touch-num-contacts" => &mut self.contacts,
            b"multi-touch-width" => &mut self.touch_width,
            b"multi-touch-height" => &mut self.touch_height,
            _ => return None,
        })
    }
}

impl Model {
    /// A name that isn't meant is ignored; one given again replaces. A bad value is 12.
    pub fn node(self, settings: &mut Settings, name: &[u8], value: &[u8]) -> u8 {
        if let Some(flag) = settings.flag(name) {
            let Some(given) = self.flag_of(value) else {
                return BAD_SETTING;
            };
            *flag = given;
        }
        if let Some(parameter) = settings.parameter(name) {
            let Some(value) = self.number_of(value) else {
                return BAD_SETTING;
            };
            *parameter = Parameter { given: true, value };
        }
        DONE
    }

    fn flag_of(self, text: &[u8]) -> Option<bool> {
        match text {
            b"0" => Some(false),
            b"1" => Some(true),
            b"2" if self.has(Fault::FlagOfTwo) => Some(true),
            _ => None,
        }
    }

    /// 1 to 10 digits, no sign, no leading zero but "0", at most 4294967295.
    fn number_of(self, text: &[u8]) -> Option<u32> {
        let right_length = (1..=10).contains(&text.len());
        let leading_zero = text.len() > 1 && text[0] == b'0' && !self.has(Fault::LeadingZero);
        if !right_length || leading_zero || !text.iter().all(u8::is_ascii_digit) {
            return None;
        }
        let number = text
            .iter()
            .fold(0u64, |number, digit| number * 10 + u64::from(digit - b'0'));
        u32::try_from(number).ok()
    }
}

#[cfg(test)]
mod tests {
    use super::*;

    #[test]
    fn numbers_of_the_paper() {
        assert_eq!(Model::default().number_of(b"4294967295"), Some(u32::MAX));
        assert_eq!(Model::default().number_of(b"0"), Some(0));
        for text in [
            "4294967296",
            "01",
            "",
            "00",
            "+1",
            "-1",
            "1 ",
            "0000000001",
            "10000000000",
            "1a",
        ] {
            assert_eq!(Model::default().number_of(text.as_bytes()), None, "{text:?}");
        }
    }

    #[test]
    fn a_flag_is_0_or_1() {
        let mut settings = Settings::fresh();
        let model = Model::default();
        let name = b"feature-raw-pointer";
        assert_eq!(model.node(&mut settings, name, b"1"), DONE);
        assert!(settings.feature_raw_pointer);
        for value in ["2", "", "01", "10"] {
            assert_eq!(model.node(&mut settings, name, value.as_bytes()), BAD_SETTING);
        }
        assert!(settings.feature_raw_pointer);
        assert_eq!(model.node(&mut settings, name, b"0"), DONE);
        assert_eq!(settings, Settings::fresh());
    }

    #[test]
    fn a_name_given_again_replaces_and_another_is_ignored() {
        let mut settings = Settings::fresh();
        let model = Model::default();
        model.node(&mut settings, b"width", b"800");
        model.node(&mut settings, b"width", b"640");
        assert_eq!(model.node(&mut settings, b"width", b"640x"), BAD_SETTING);
        assert_eq!(model.node(&mut settings, b"Width", b"640x"), DONE);
        assert_eq!(model.node(&mut settings, b"page-gref", b"?"), DONE);
        let width = Parameter {
            given: true,
            value: 640,
        };
        assert_eq!(
            settings,
            Settings {
                width,
                ..Settings::fresh()
            }
        );
    }
}
