//! The numbers that calls answer.

pub const DONE: u8 = 0;
pub const INVALID: u8 = 1;
pub const BAD_ACCESS: u8 = 2;
pub const READ_ONLY: u8 = 3;
pub const NO_REGISTER: u8 = 4;
pub const DEVICE_OFF: u8 = 5;
pub const BAD_SLOT: u8 = 6;
pub const NO_ROOM: u8 = 7;
pub const NOT_OFFERED: u8 = 8;
pub const MALFORMED: u8 = 9;
pub const BAD_INDEX: u8 = 10;
pub const NOTHING_TO_READ: u8 = 11;
pub const BAD_SETTING: u8 = 12;
