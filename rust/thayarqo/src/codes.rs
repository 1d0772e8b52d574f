//! Types and codes of records, by Linux's names. The records of the device itself (`EV_DEV`) are unknown to Linux.

macro_rules! types {
    ($($name:ident = $number:literal, $words:literal;)*) => {
        $(
            #[doc = $words]
            pub const $name: u16 = $number;
        )*

        /// The name of a type of record.
        pub fn type_name(kind: u16) -> Option<&'static str> {
            match kind {
                $($name => Some(stringify!($name)),)*
                _ => None,
            }
        }
    };
}

macro_rules! codes {
    ($($kind:ident $name:ident = $number:literal, $words:literal;)*) => {
        $(
            #[doc = $words]
            pub const $name: u16 = $number;
        )*

        /// The name of a code among the records of a type.
        pub fn code_name(kind: u16, code: u16) -> Option<&'static str> {
            match (kind, code) {
                $(($kind, $name) => Some(stringify!($name)),)*
                _ => None,
            }
        }

        /// The type and the code that a name stands for.
        pub fn code_named(name: &str) -> Option<(u16, u16)> {
            match name {
                $(stringify!($name) => Some(($kind, $name)),)*
                _ => None,
            }
        }
    };
}

types! {
    EV_SYN = 0, "Separates packets.";
    EV_KEY = 1, "A key or button.";
    EV_REL = 2, "A relative movement.";
    EV_ABS = 3, "An absolute position.";
    EV_DEV = 6, "The device itself: slots come and go.";
}

codes! {
    EV_SYN SYN_REPORT = 0, "The end of a packet.";
    EV_SYN SYN_MT_REPORT = 2, "The end of a contact.";
    EV_SYN SYN_DROPPED = 3, "Packets were lost before this record.";
    EV_DEV DEV_SET = 1, "The events that follow are this slot's.";
    EV_DEV DEV_CONF = 2, "A slot has been taken.";
    EV_DEV DEV_RESET = 3, "A slot has become free, or all of them.";
    EV_REL REL_X = 0x00, "Movement to the right.";
    EV_REL REL_Y = 0x01, "Movement downwards.";
    EV_REL REL_HWHEEL = 0x06, "Movement of the horizontal wheel.";
    EV_REL REL_WHEEL = 0x08, "Movement of the wheel.";
    EV_ABS ABS_X = 0x00, "Position from the left.";
    EV_ABS ABS_Y = 0x01, "Position from the top.";
    EV_ABS ABS_WHEEL = 0x08, "Position of a wheel.";
    EV_ABS ABS_GAS = 0x09, "How far a pedal is down.";
    EV_ABS ABS_PRESSURE = 0x18, "Pressure of the pen or tool.";
    EV_ABS ABS_MT_SLOT = 0x2f, "The contact that the next events are about.";
    EV_ABS ABS_MT_POSITION_X = 0x35, "The contact's position from the left.";
    EV_ABS ABS_MT_POSITION_Y = 0x36, "The contact's position from the top.";
    EV_ABS ABS_MT_TRACKING_ID = 0x39, "The contact's identity, -1 once it is lifted.";
    EV_KEY BTN_0 = 0x100, "The first code that an entry can offer.";
    EV_KEY BTN_LEFT = 0x110, "The left mouse button.";
    EV_KEY BTN_RIGHT = 0x111, "The right mouse button.";
    EV_KEY BTN_MIDDLE = 0x112, "The middle mouse button.";
    EV_KEY BTN_SIDE = 0x113, "The side mouse button.";
    EV_KEY BTN_EXTRA = 0x114, "The extra mouse button.";
    EV_KEY BTN_FORWARD = 0x115, "The forward mouse button.";
    EV_KEY BTN_BACK = 0x116, "The back mouse button.";
    EV_KEY BTN_TASK = 0x117, "The task mouse button.";
    EV_KEY BTN_TOOL_PEN = 0x140, "A pen is near.";
    EV_KEY BTN_TOOL_RUBBER = 0x141, "A rubber is near.";
    EV_KEY BTN_TOOL_FINGER = 0x145, "A finger is near.";
    EV_KEY BTN_TOOL_MOUSE = 0x146, "A mouse is near.";
    EV_KEY BTN_TOUCH = 0x14a, "The tool touches the surface.";
    EV_KEY BTN_STYLUS = 0x14b, "The first button of the stylus.";
    EV_KEY BTN_STYLUS2 = 0x14c, "The second button of the stylus.";
}
