//! The wrong builds that a comparison has to catch: each breaks one rule, at one place of the model.

/// The enum, and the list of all its faults.
macro_rules! faults {
    ($($(#[$says:meta])* $name:ident,)*) => {
        #[derive(Clone, Copy, Debug, Default, PartialEq, Eq)]
        pub enum Fault {
            #[default]
            None,
            $($(#[$says])* $name,)*
        }

        impl Fault {
            pub const ALL: &'static [Fault] = &[$(Fault::$name,)*];
        }
    };
}

faults! {
    // Records and the ring
    /// Unread is w - r without the modulus.
    UnreadWithoutModulus,
    /// As many records may be unread as the ring has places, so that a full ring looks empty.
    RoomForAFullRing,

    // Entries
    /// The driver steps through entries at 68 bytes, whatever their size is.
    EntriesSteppedAt68,
    /// Button bits are counted from code 0.
    ButtonBitsFromZero,
    /// A relative code needs its bit of relbits.
    RelbitsConsulted,
    /// The word that holds a code's bit is found by a division by 64.
    MaskWordBy64,
    /// The type's own bit of evbits isn't needed.
    TypeBitNotConsulted,

    // Registers
    /// CONTROL reads the interrupts at bit 2.
    InterruptsReadAtBit2,
    /// A write is refused as read-only before it is asked whether there is a register.
    ReadOnlyBeforeNoRegister,
    /// A write leaves ISR as it is.
    IsrNotCleared,
    /// CLIENT_REV can be written while on.
    ClientRevWritableWhileOn,
    /// What is written to READ_PTR is taken modulo the ring's length.
    ReadPointerMasked,
    /// A switch-on keeps the lost mark.
    LostMarkAfterSwitchOn,

    // The revision and its registers
    /// A device goes on after a rejected CLIENT_REV.
    RejectedSwitchedOn,
    /// CLIENT_REV 1 is rejected.
    ClientRev1Rejected,
    /// REV reads 2 where CLIENT_REV is 1.
    RevOf2AtClientRev1,
    /// ACCELERATION can be 21.
    AccelerationOf21,
    /// Of what is written to ACCELERATION the low 16 bits count.
    AccelerationModulo65536,
    /// ACCELERATION is read and written in revision 2.
    AccelerationInRevision2,
    /// A state may have ACCELERATION 0.
    AccelerationOfZero,

    // Packets
    /// The number of events is tested before the slot.
    MalformedBeforeSlot,
    /// 33 events are a packet.
    PacketOf33Events,
    /// A packet is written event by event until the ring is full.
    PacketEventByEvent,
    /// A packet that is refused with 10 doesn't set the lost mark.
    LostMarkNotSetAt10,
    /// No DEV_SET tells that the slot changes.
    DevSetMissing,
    /// The lost mark stays after the packet that tells of the gap.
    GapShownTwice,
    /// ISR is set while interrupts are off.
    IsrWithoutInterrupts,

    // Packets for revision 1
    /// Scaled motion is rounded down.
    MotionRoundedDown,
    /// Scaled motion may be 32768.
    MotionOf32768,
    /// The wheel is scaled.
    WheelScaled,
    /// An absolute coordinate may be 65536.
    CoordinateOf65536,
    /// An absolute coordinate that is missing is 0.
    MissingAxisAsZero,
    /// A switch-on keeps the last position.
    PositionAfterSwitchOn,
    /// An axis or the wheel may come twice.
    AxisRepeated,
    /// REL_HWHEEL has a form.
    HwheelAccepted,
    /// Buttons come before motion.
    ButtonsBeforeMotion,
    /// The FENCE comes before the other records.
    FenceFirst,
    /// No FENCE is put.
    FenceMissing,
    /// The lost mark is shown in revision 1.
    GapInRevision1,
    /// A packet of revision 1 clears the lost mark.
    LostMarkClearedInRevision1,
    /// A packet of revision 1 makes its slot the current one.
    CurrentSlotInRevision1,
    /// A switch-on puts records in revision 1.
    SwitchOnToldInRevision1,
    /// An add and a remove put a record in revision 1.
    PlugToldInRevision1,

    // Add and remove
    /// Of an entry the first 68 bytes alone are stored.
    EntryStoredTo68,
    /// The current slot stays when its device is removed.
    CurrentSlotAfterRemove,

    // The driver
    /// The driver reads a DEV_RESET of all as -1.
    ResetAllAsMinusOne,
    /// A spoiled packet is told.
    SpoiledPacketTold,
    /// Of a packet of more than 32 events the first 32 are told.
    OverlongPacketTold,
    /// A record that answers 9 isn't consumed.
    MalformedRecordKept,
    /// Copy-out answers its limit as the count.
    CopyOutCountsLimit,
    /// The reader of revision 1 refuses a record whose revision isn't 1.
    OtherRevisionRefused,

    // The keyboard ring
    /// An event's place is its index modulo 50.
    RingPlaceModulo50,
    /// A put that is refused for room moves the index.
    RingIndexMovedAtRefusal,
    /// A key may be pressed by any number but 0.
    PressedAboveOne,
    /// A contact may be as high as the limit.
    ContactAtLimit,

    // Node settings
    /// A number may have leading zeros.
    LeadingZero,
    /// The flag "2" is set.
    FlagOfTwo,
    /// Multi-touch may have 33 contacts.
    ContactsOf33,
    /// Raw needs no absolute.
    RawWithoutAbsolute,
}
