//! The library's structs from the model's, and back.

use thayarqo_model::closing::Closed;
use thayarqo_model::device::{Device, Position};
use thayarqo_model::driver::Driver;
use thayarqo_model::geometry::Geometry;
use thayarqo_model::revision1_reader::TakenRecord;
use thayarqo_model::ring_event::{RingNumbers, Taken};
use thayarqo_model::settings::{Parameter, Settings};
use thayarqo_sys as sys;

/// The functions between a struct of the model and the library's: fields of the same type by name, then those that have functions of
/// their own.
macro_rules! both_ways {
    ($to:ident, $of:ident: $model:ident, $library:ident {
        $($same:ident),* $(; $to_field:ident, $of_field:ident: $($field:ident),+)?
    }) => {
        pub fn $to(value: &$model) -> sys::$library {
            sys::$library { $($same: value.$same,)* $($($field: $to_field(&value.$field)),+)? }
        }

        pub fn $of(value: sys::$library) -> $model {
            $model { $($same: value.$same,)* $($($field: $of_field(value.$field)),+)? }
        }
    };
}

both_ways!(to_position, position_of: Position, Position { x, y });

both_ways!(to_device, device_of: Device, Device {
    on, interrupts, isr, client_rev_written, client_rev, acceleration, write_index, current_slot, lost, taken;
    to_position, position_of: position
});

both_ways!(to_driver, driver_of: Driver, Driver { slot, held, overlong, spoiled, ignoring });

both_ways!(to_parameter, parameter_of: Parameter, Parameter { given, value });

both_ways!(to_settings, settings_of: Settings, Settings {
    feature_disable_keyboard, feature_disable_pointer, feature_abs_pointer, feature_multi_touch, feature_raw_pointer,
    request_abs_pointer, request_multi_touch, request_raw_pointer;
    to_parameter, parameter_of: width, height, contacts, touch_width, touch_height
});

both_ways!(to_ring_event, ring_event_of: RingNumbers, RingEvent {
    kind, subtype, contact, pressed, x, y, z, keycode, major, minor, orientation
});

pub fn to_geometry(geometry: Geometry) -> sys::Geometry {
    sys::Geometry {
        pages: geometry.pages,
        record_size: geometry.record_size,
        entry_size: geometry.entry_size,
    }
}

pub fn closed_of(closed: sys::Closed) -> Closed {
    Closed {
        answer: closed.answer,
        absolute: closed.absolute,
        multi_touch: closed.multi_touch,
        raw: closed.raw,
        disable_keyboard: closed.disable_keyboard,
        disable_pointer: closed.disable_pointer,
        width: closed.width,
        height: closed.height,
        contacts: closed.contacts,
        touch_width: closed.touch_width,
        touch_height: closed.touch_height,
    }
}

pub fn taken_of(found: sys::RingFound) -> Taken {
    Taken {
        answer: found.answer,
        event: ring_event_of(found.event),
    }
}

pub fn record_of(taken: sys::Taken) -> TakenRecord {
    TakenRecord {
        answer: taken.answer,
        flags: taken.flags,
        revision: taken.revision,
        data: taken.data,
    }
}
