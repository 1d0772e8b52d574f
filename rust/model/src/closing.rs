//! The settings closed: the modes, and what each needs.

use crate::answer::{BAD_SETTING, DONE};
use crate::settings::{Parameter, Settings};
use crate::{Fault, Model};

/// The modes, the numbers and the two disable flags; all 0 where the answer isn't.
#[derive(Clone, Copy, Debug, Default, PartialEq, Eq)]
pub struct Closed {
    pub answer: u8,
    pub absolute: bool,
    pub multi_touch: bool,
    pub raw: bool,
    pub disable_keyboard: bool,
    pub disable_pointer: bool,
    pub width: u32,
    pub height: u32,
    pub contacts: u32,
    pub touch_width: u32,
    pub touch_height: u32,
}

fn all_given(parameters: &[Parameter]) -> bool {
    parameters.iter().all(|parameter| parameter.given)
}

/// A number that no node gave is 0.
fn value(parameter: Parameter) -> u32 {
    if parameter.given {
        parameter.value
    } else {
        0
    }
}

impl Model {
    /// A lack of what a mode needs is 12.
    pub fn close(self, settings: &Settings) -> Closed {
        let absolute = settings.feature_abs_pointer && settings.request_abs_pointer;
        let multi_touch = settings.feature_multi_touch && settings.request_multi_touch;
        let raw = settings.feature_raw_pointer
            && settings.request_raw_pointer
            && (absolute || self.has(Fault::RawWithoutAbsolute));
        let most_contacts = 32 + u32::from(self.has(Fault::ContactsOf33));
        let sized = all_given(&[settings.width, settings.height]);
        let touch_sized = all_given(&[settings.contacts, settings.touch_width, settings.touch_height])
            && (1..=most_contacts).contains(&settings.contacts.value);
        if absolute && !raw && !sized || multi_touch && !touch_sized {
            return Closed {
                answer: BAD_SETTING,
                ..Closed::default()
            };
        }
        Closed {
            answer: DONE,
            absolute,
            multi_touch,
            raw,
            disable_keyboard: settings.feature_disable_keyboard,
            disable_pointer: settings.feature_disable_pointer,
            width: value(settings.width),
            height: value(settings.height),
            contacts: value(settings.contacts),
            touch_width: value(settings.touch_width),
            touch_height: value(settings.touch_height),
        }
    }
}

#[cfg(test)]
mod tests {
    use super::*;

    fn closed(nodes: &[(&str, &str)]) -> Closed {
        let mut settings = Settings::fresh();
        for (name, text) in nodes {
            let answer = Model::default().node(&mut settings, name.as_bytes(), text.as_bytes());
            assert_eq!(answer, DONE);
        }
        Model::default().close(&settings)
    }

    const ABSOLUTE: [(&str, &str); 2] = [("feature-abs-pointer", "1"), ("request-abs-pointer", "1")];
    const RAW: [(&str, &str); 2] = [("feature-raw-pointer", "1"), ("request-raw-pointer", "1")];
    const TOUCH: [(&str, &str); 4] = [
        ("feature-multi-touch", "1"),
        ("request-multi-touch", "1"),
        ("multi-touch-width", "0"),
        ("multi-touch-height", "7"),
    ];

    #[test]
    fn nothing_asked_nothing_needed() {
        assert_eq!(closed(&[]), Closed::default());
        assert!(!closed(&[ABSOLUTE[0]]).absolute);
        assert!(!closed(&RAW).raw);
    }

    #[test]
    fn absolute_needs_a_size_unless_raw() {
        assert_eq!(closed(&ABSOLUTE).answer, BAD_SETTING);
        let sized = [&ABSOLUTE[..], &[("width", "0"), ("height", "9")]].concat();
        assert_eq!((closed(&sized).absolute, closed(&sized).height), (true, 9));
        assert!(closed(&[ABSOLUTE, RAW].concat()).raw);
    }

    #[test]
    fn multi_touch_needs_1_to_32_contacts() {
        assert_eq!(closed(&TOUCH).answer, BAD_SETTING);
        for (contacts, answer) in [("0", BAD_SETTING), ("1", DONE), ("32", DONE), ("33", BAD_SETTING)] {
            let nodes = [&TOUCH[..], &[("multi-touch-num-contacts", contacts)]].concat();
            assert_eq!(closed(&nodes).answer, answer);
        }
        assert_eq!(closed(&[("multi-touch-num-contacts", "33")]).contacts, 33);
    }
}
