//! Why a call was refused.
use std::error::Error;
use std::fmt;
use thayarqo_sys as sys;

/// What a call answers: done, with what it hands back, or the reason why it isn't.
pub type Answer<T> = Result<T, Refusal>;

/// Why a call was refused. A refused call has changed nothing, but for two exceptions: a packet refused with [`BadIndex`] or
/// [`NoRoom`] sets the device's lost mark, and a reading call that answers [`Malformed`] has consumed the record or event.
///
/// [`BadIndex`]: Refusal::BadIndex
/// [`NoRoom`]: Refusal::NoRoom
/// [`Malformed`]: Refusal::Malformed
#[derive(Clone, Copy, Debug, PartialEq, Eq, Hash)]
#[repr(u8)]
pub enum Refusal {
    /// 1: a geometry that isn't allowed, a buffer of another length, or a state that breaks a rule.
    Invalid = sys::INVALID,
    /// 2: an access that isn't 4 bytes wide, isn't at a multiple of 4, or is past the BAR.
    BadAccess = sys::BAD_ACCESS,
    /// 3: a write to a read-only place.
    ReadOnly = sys::READ_ONLY,
    /// 4: no register at this offset of the first page.
    NoRegister = sys::NO_REGISTER,
    /// 5: a packet while the device is off.
    DeviceOff = sys::DEVICE_OFF,
    /// 6: a slot out of range, taken at an add, or absent at a remove, a packet or a lookup.
    BadSlot = sys::BAD_SLOT,
    /// 7: too little room.
    NoRoom = sys::NO_ROOM,
    /// 8: an event that the slot doesn't offer, or that has no form in revision 1 while it is served.
    NotOffered = sys::NOT_OFFERED,
    /// 9: a badly formed packet, entry, event or record.
    Malformed = sys::MALFORMED,
    /// 10: the other end's index is impossible.
    BadIndex = sys::BAD_INDEX,
    /// 11: nothing to read.
    NothingToRead = sys::NOTHING_TO_READ,
    /// 12: a bad node text, or settings that lack what a mode needs.
    BadSetting = sys::BAD_SETTING,
}

const REFUSALS: [Refusal; 12] = [
    Refusal::Invalid,
    Refusal::BadAccess,
    Refusal::ReadOnly,
    Refusal::NoRegister,
    Refusal::DeviceOff,
    Refusal::BadSlot,
    Refusal::NoRoom,
    Refusal::NotOffered,
    Refusal::Malformed,
    Refusal::BadIndex,
    Refusal::NothingToRead,
    Refusal::BadSetting,
];

impl Refusal {
    /// The number of this answer in the library, 1 to 12.
    pub fn number(self) -> u8 {
        self as u8
    }

    /// The answer of a number: 0 is done.
    ///
    /// # Panics
    ///
    /// Where the number is above 12, which no call answers.
    pub fn check(number: u8) -> Answer<()> {
        match number.checked_sub(1) {
            None => Ok(()),
            Some(index) => Err(REFUSALS[usize::from(index)]),
        }
    }
}

impl fmt::Display for Refusal {
    fn fmt(&self, out: &mut fmt::Formatter) -> fmt::Result {
        out.write_str(match self {
            Refusal::Invalid => "the geometry, a buffer's length or the state isn't allowed",
            Refusal::BadAccess => "the access isn't an aligned word of the BAR",
            Refusal::ReadOnly => "the place is read-only",
            Refusal::NoRegister => "there is no register at this offset",
            Refusal::DeviceOff => "the device is off",
            Refusal::BadSlot => "the slot is out of range, taken or absent",
            Refusal::NoRoom => "there is too little room",
            Refusal::NotOffered => "an event isn't offered, or has no form in the guest's revision",
            Refusal::Malformed => "the packet, entry, event or record is badly formed",
            Refusal::BadIndex => "the other end's index is impossible",
            Refusal::NothingToRead => "there is nothing to read",
            Refusal::BadSetting => "a node's text is bad, or a node is missing",
        })
    }
}

impl Error for Refusal {}
