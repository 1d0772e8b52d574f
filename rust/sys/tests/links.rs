//! The library links, and its structs come over whole.
use thayarqo_sys::{safe, Geometry, Position, Taken, FLAG_VWHEEL, NO_SLOT};

#[test]
fn fresh_states_come_over() {
    let (device, driver, settings) = (safe::fresh_device(), safe::fresh_driver(), safe::fresh_settings());
    assert!(!device.on && device.taken == 0 && device.current_slot == NO_SLOT);
    assert_eq!((device.acceleration, device.position), (10, Position::default()));
    assert!(driver.held == 0 && driver.slot == NO_SLOT && !driver.ignoring);
    assert!(!settings.touch_height.given && !settings.feature_raw_pointer);
}

#[test]
fn a_record_of_revision_1_comes_over() {
    let geometry = Geometry {
        pages: 1,
        record_size: 8,
        entry_size: 68,
    };
    let mut area = [0; 4096];
    area[4] = 1;
    area[8..16].copy_from_slice(&[0x00, 0x04, 1, 0, 0xFE, 0xFF, 0xFF, 0xFF]);
    let taken = Taken {
        answer: 0,
        flags: FLAG_VWHEEL,
        revision: 1,
        data: u32::MAX - 1,
    };
    assert_eq!(safe::revision1_step(geometry, &mut area), taken);
    assert_eq!(area[0], 1);
}
