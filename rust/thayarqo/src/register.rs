//! Offsets of the registers in the BAR, and the bits of CONTROL.

/// Reads 0x584D4F55.
pub const MAGIC: u64 = 0x0;
/// The revision that the device serves: 1 while CLIENT_REV is unset or 1, and else 2.
pub const REV: u64 = 0x4;
/// Switches the device and its interrupts on and off.
pub const CONTROL: u64 = 0x100;
/// Bytes of a record.
pub const EVENT_SIZE: u64 = 0x104;
/// Pages of the event area.
pub const NPAGES: u64 = 0x108;
/// How fast the pointer is in revision 1: relative motion is multiplied by a tenth of this. 1 to 20, and 10 at first; other numbers
/// are ignored. Not used in revision 2, where it reads 0.
pub const ACCELERATION: u64 = 0x10C;
/// Tells of an interrupt; any write dismisses it.
pub const ISR: u64 = 0x110;
/// Bytes of an entry.
pub const CONF_SIZE: u64 = 0x114;
/// The revision that the guest expects, written before the device is switched on: 2, or 1, as which a device serves where nothing was
/// written. Any other number is rejected, and reads 0: the device stays off until 1 or 2 is written.
pub const CLIENT_REV: u64 = 0x118;
/// The guest's index of the next record to read.
pub const READ_PTR: u64 = 0x1000;
/// The device's index of the next record to write.
pub const WRITE_PTR: u64 = 0x1004;

/// In CONTROL: the device is on.
pub const CONTROL_ON: u32 = 1;
/// In CONTROL: a packet raises ISR.
pub const CONTROL_INTERRUPTS: u32 = 2;
