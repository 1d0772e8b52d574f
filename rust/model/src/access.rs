//! Reads and writes of the registers and the pages.

use crate::answer::{BAD_ACCESS, DONE, INVALID, NO_REGISTER, READ_ONLY};
use crate::bytes::{put_word, word};
use crate::device::Device;
use crate::geometry::{Geometry, PAGE};
use crate::records::READ_POINTER;
use crate::{Fault, Model};

pub const MAGIC: u64 = 0;
pub const REV: u64 = 4;
pub const CONTROL: u64 = 0x100;
pub const EVENT_SIZE: u64 = 0x104;
pub const NPAGES: u64 = 0x108;
pub const ACCELERATION: u64 = 0x10C;
pub const ISR: u64 = 0x110;
pub const CONF_SIZE: u64 = 0x114;
pub const CLIENT_REV: u64 = 0x118;
pub const READ_PTR: u64 = 0x1000;

/// A read's answer and its value, 0 where it was refused.
#[derive(Clone, Copy, Debug, PartialEq, Eq)]
pub struct Value {
    pub answer: u8,
    pub value: u32,
}

/// A word of the pages behind the first one. The offset is inside the BAR.
fn page_word(area: &[u8], page: &[u8], offset: u64) -> u32 {
    let at = offset as usize - PAGE;
    if at < area.len() {
        word(area, at)
    } else {
        word(page, at - area.len())
    }
}

impl Model {
    /// Refusals in order: 1, 2, 4.
    pub fn read(self, device: &Device, geometry: Geometry, area: &[u8], page: &[u8], offset: u64, width: u32) -> Value {
        let answer = self.refusal(device, geometry, area, page, offset, width);
        let value = match answer {
            DONE => self
                .register(device, geometry, offset)
                .unwrap_or_else(|| page_word(area, page, offset)),
            _ => 0,
        };
        Value { answer, value }
    }

    /// Refusals in order: 1, 2, 4, 3, and 7 at switch-on.
    #[allow(clippy::too_many_arguments)]
    pub fn write(
        self,
        device: &mut Device,
        geometry: Geometry,
        area: &mut [u8],
        page: &[u8],
        offset: u64,
        width: u32,
        value: u32,
    ) -> u8 {
        let answer = self.refusal(device, geometry, area, page, offset, width);
        if answer == NO_REGISTER && self.has(Fault::ReadOnlyBeforeNoRegister) {
            return READ_ONLY;
        }
        if answer != DONE {
            return answer;
        }
        match offset {
            CONTROL => return self.write_control(device, geometry, area, value),
            ACCELERATION => self.write_acceleration(device, value),
            ISR => device.isr &= self.has(Fault::IsrNotCleared),
            CLIENT_REV => self.write_client_rev(device, value),
            READ_PTR if self.has(Fault::ReadPointerMasked) => {
                put_word(area, READ_POINTER, value % geometry.ring_length())
            }
            READ_PTR => put_word(area, READ_POINTER, value),
            _ => return READ_ONLY,
        }
        DONE
    }

    /// What a register of the first page reads, if there is one.
    fn register(self, device: &Device, geometry: Geometry, offset: u64) -> Option<u32> {
        let interrupts_bit = 1 + u32::from(self.has(Fault::InterruptsReadAtBit2));
        Some(match offset {
            MAGIC => 0x584D_4F55,
            REV => self.revision_number(device),
            CONTROL => u32::from(device.on) + (u32::from(device.interrupts) << interrupts_bit),
            EVENT_SIZE => geometry.record_size,
            NPAGES => geometry.pages,
            ACCELERATION if self.has_acceleration(device) => u32::from(device.acceleration),
            ACCELERATION => 0,
            ISR => u32::from(device.isr),
            CONF_SIZE => geometry.entry_size,
            CLIENT_REV => u32::from(device.client_rev),
            _ => return None,
        })
    }

    /// 1, 2, 4: what reads and writes refuse alike.
    fn refusal(self, device: &Device, geometry: Geometry, area: &[u8], page: &[u8], offset: u64, width: u32) -> u8 {
        if self.is_invalid(device, geometry, area, page) {
            return INVALID;
        }
        if width != 4 || !offset.is_multiple_of(4) || offset >= geometry.bar_length() {
            return BAD_ACCESS;
        }
        if offset < PAGE as u64 && self.register(device, geometry, offset).is_none() {
            return NO_REGISTER;
        }
        DONE
    }
}

#[cfg(test)]
mod tests {
    use super::*;

    const GEOMETRY: Geometry = Geometry {
        pages: 2,
        record_size: 8,
        entry_size: 68,
    };

    struct Machine {
        device: Device,
        area: [u8; 2 * PAGE],
    }

    impl Machine {
        fn new() -> Machine {
            let mut area = [0xEE; 2 * PAGE];
            put_word(&mut area, READ_POINTER, 9);
            Machine {
                device: Device::fresh(),
                area,
            }
        }

        fn read(&self, offset: u64) -> (u8, u32) {
            let page = [0x11; PAGE];
            let Value { answer, value } = Model::default().read(&self.device, GEOMETRY, &self.area, &page, offset, 4);
            (answer, value)
        }

        fn write(&mut self, offset: u64, value: u32) -> u8 {
            let (device, area) = (&mut self.device, &mut self.area);
            Model::default().write(device, GEOMETRY, area, &[0; PAGE], offset, 4, value)
        }
    }

    #[test]
    fn places_of_the_bar() {
        let machine = Machine::new();
        assert_eq!(machine.read(MAGIC), (DONE, 0x584D4F55));
        assert_eq!(machine.read(NPAGES), (DONE, 2));
        assert_eq!(machine.read(READ_PTR), (DONE, 9));
        assert_eq!(machine.read(0x2FFC), (DONE, 0xEEEE_EEEE));
        assert_eq!(machine.read(0x3000), (DONE, 0x1111_1111));
        assert_eq!(machine.read(0x3FFC), (DONE, 0x1111_1111));
        assert_eq!(machine.read(0x4000), (BAD_ACCESS, 0));
        assert_eq!(machine.read(u64::MAX - 3), (BAD_ACCESS, 0));
        assert_eq!(machine.read(0x102), (BAD_ACCESS, 0));
        assert_eq!(machine.read(8), (NO_REGISTER, 0));
    }

    #[test]
    fn what_a_write_refuses() {
        let mut machine = Machine::new();
        for offset in [MAGIC, REV, EVENT_SIZE, NPAGES, CONF_SIZE, 0x1004, 0x3000] {
            assert_eq!(machine.write(offset, 1), READ_ONLY);
        }
        assert_eq!(machine.write(0xFFC, 1), NO_REGISTER);
        assert_eq!(machine.write(READ_PTR, u32::MAX), DONE);
        assert_eq!(machine.read(READ_PTR), (DONE, u32::MAX));
    }
}
