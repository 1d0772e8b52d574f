//! What a device remembers of the revision that it serves.

use crate::random::Random;
use thayarqo_model::device::{Device, Position};

/// Mostly a number that ACCELERATION takes.
pub fn any_acceleration(random: &mut Random) -> u32 {
    match random.below(4) {
        0 => random.pick(&[0, 21, 256 + 10, 65536 + 10, u32::MAX]),
        1 => random.pick(&[1, 10, 20]),
        _ => 1 + random.below(20),
    }
}

/// Has the device serve one of the revisions, with what revision 1 keeps.
pub fn serve(random: &mut Random, device: &mut Device) {
    (device.client_rev_written, device.client_rev) = random.pick(&[(true, 2), (true, 2), (false, 0), (true, 1)]);
    device.acceleration = match random.once_in(2) {
        true => random.pick(&[1, 10, 20]),
        false => 1 + random.below(20) as u16,
    };
    device.position = any_position(random);
}

pub fn any_position(random: &mut Random) -> Position {
    Position {
        x: random.word() as u16,
        y: random.word() as u16,
    }
}
