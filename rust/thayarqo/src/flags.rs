//! Flags of revision 1's records, by the names of its page. A record that a device puts has one of them.
use thayarqo_sys as sys;

macro_rules! flags {
    ($($name:ident = $number:ident, $words:literal;)*) => {
        $(
            #[doc = $words]
            pub const $name: u16 = sys::$number;
        )*

        /// The name of a flag that stands alone.
        pub fn flag_name(flags: u16) -> Option<&'static str> {
            match flags {
                $($name => Some(stringify!($name)),)*
                _ => None,
            }
        }
    };
}

flags! {
    ABSOLUTE = FLAG_ABSOLUTE, "The pointer is at a place.";
    RELATIVE = FLAG_RELATIVE, "The pointer has moved.";
    FENCE = FLAG_FENCE, "The end of a group.";
    LEFT_BUTTON_DOWN = FLAG_LEFT_BUTTON_DOWN, "The left button went down.";
    LEFT_BUTTON_UP = FLAG_LEFT_BUTTON_UP, "The left button went up.";
    RIGHT_BUTTON_DOWN = FLAG_RIGHT_BUTTON_DOWN, "The right button went down.";
    RIGHT_BUTTON_UP = FLAG_RIGHT_BUTTON_UP, "The right button went up.";
    MIDDLE_BUTTON_DOWN = FLAG_MIDDLE_BUTTON_DOWN, "The middle button went down.";
    MIDDLE_BUTTON_UP = FLAG_MIDDLE_BUTTON_UP, "The middle button went up.";
    HWHEEL = FLAG_HWHEEL, "The horizontal wheel has moved. A device of this library puts no such record.";
    VWHEEL = FLAG_VWHEEL, "The vertical wheel has moved.";
}
