//! The comparison finds each of the wrong builds, and nothing in the right one.

use thayarqo_differential::{delivery, run, Report, GEOMETRIES};
use thayarqo_model::{Fault, Model};

const SEED: u64 = 1;
const CALLS: u64 = 1_000_000;

fn assert_found(fault: Fault) {
    let Report { difference, .. } = run(SEED, CALLS, fault);
    assert!(difference.is_some(), "{fault:?} makes no difference");
}

/// A test for each fault, named after it, and the list of those that have one.
macro_rules! finds {
    ($($test:ident: $fault:ident,)*) => {
        const FOUND: &[Fault] = &[$(Fault::$fault,)*];

        mod finds {
            use super::*;

            $(
                #[test]
                fn $test() { assert_found(Fault::$fault); }
            )*
        }
    };
}

finds! {
    unread_without_modulus: UnreadWithoutModulus,
    room_for_a_full_ring: RoomForAFullRing,
    entries_stepped_at_68: EntriesSteppedAt68,
    button_bits_from_zero: ButtonBitsFromZero,
    relbits_consulted: RelbitsConsulted,
    mask_word_by_64: MaskWordBy64,
    type_bit_not_consulted: TypeBitNotConsulted,
    interrupts_read_at_bit_2: InterruptsReadAtBit2,
    read_only_before_no_register: ReadOnlyBeforeNoRegister,
    isr_not_cleared: IsrNotCleared,
    client_rev_writable_while_on: ClientRevWritableWhileOn,
    read_pointer_masked: ReadPointerMasked,
    lost_mark_after_switch_on: LostMarkAfterSwitchOn,
    rejected_switched_on: RejectedSwitchedOn,
    client_rev_1_rejected: ClientRev1Rejected,
    rev_of_2_at_client_rev_1: RevOf2AtClientRev1,
    acceleration_of_21: AccelerationOf21,
    acceleration_modulo_65536: AccelerationModulo65536,
    acceleration_in_revision_2: AccelerationInRevision2,
    acceleration_of_zero: AccelerationOfZero,
    malformed_before_slot: MalformedBeforeSlot,
    packet_of_33_events: PacketOf33Events,
    packet_event_by_event: PacketEventByEvent,
    lost_mark_not_set_at_10: LostMarkNotSetAt10,
    dev_set_missing: DevSetMissing,
    gap_shown_twice: GapShownTwice,
    isr_without_interrupts: IsrWithoutInterrupts,
    motion_rounded_down: MotionRoundedDown,
    motion_of_32768: MotionOf32768,
    wheel_scaled: WheelScaled,
    coordinate_of_65536: CoordinateOf65536,
    missing_axis_as_zero: MissingAxisAsZero,
    position_after_switch_on: PositionAfterSwitchOn,
    axis_repeated: AxisRepeated,
    hwheel_accepted: HwheelAccepted,
    buttons_before_motion: ButtonsBeforeMotion,
    fence_first: FenceFirst,
    fence_missing: FenceMissing,
    gap_in_revision_1: GapInRevision1,
    lost_mark_cleared_in_revision_1: LostMarkClearedInRevision1,
    current_slot_in_revision_1: CurrentSlotInRevision1,
    switch_on_told_in_revision_1: SwitchOnToldInRevision1,
    plug_told_in_revision_1: PlugToldInRevision1,
    entry_stored_to_68: EntryStoredTo68,
    current_slot_after_remove: CurrentSlotAfterRemove,
    reset_all_as_minus_one: ResetAllAsMinusOne,
    spoiled_packet_told: SpoiledPacketTold,
    overlong_packet_told: OverlongPacketTold,
    malformed_record_kept: MalformedRecordKept,
    copy_out_counts_limit: CopyOutCountsLimit,
    other_revision_refused: OtherRevisionRefused,
    ring_place_modulo_50: RingPlaceModulo50,
    ring_index_moved_at_refusal: RingIndexMovedAtRefusal,
    pressed_above_one: PressedAboveOne,
    contact_at_limit: ContactAtLimit,
    leading_zero: LeadingZero,
    flag_of_two: FlagOfTwo,
    contacts_of_33: ContactsOf33,
    raw_without_absolute: RawWithoutAbsolute,
}

#[test]
fn every_wrong_build_has_its_test() {
    assert_eq!(FOUND, Fault::ALL);
}

#[test]
fn the_right_build_makes_no_difference_and_meets_every_answer() {
    let report = run(SEED, CALLS, Fault::None);
    assert!(report.difference.is_none(), "{report}");
    assert!(report.device_lists >= GEOMETRIES);
    assert!(report.told.iter().all(|&count| count > 0), "{report}");
    // The device puts no HWHEEL.
    let mut flags = report.flags.iter().enumerate().filter(|(bit, _)| *bit != 9);
    assert!(flags.all(|(_, &count)| count > 0), "{report}");
    for (call, numbers) in [
        ("read", &[0, 1, 2, 4][..]),
        ("write", &[0, 1, 2, 3, 4]),
        ("put packet", &[0, 1, 5, 6, 7, 8, 9, 10]),
        ("add", &[0, 1, 6, 7, 9, 10]),
        ("remove", &[0, 1, 6, 7, 10]),
        ("step", &[0, 1, 9, 10, 11]),
        ("copy out", &[0, 1, 10, 11]),
        ("lookup", &[0, 1, 6]),
        ("revision 1 step", &[0, 1, 10, 11]),
        ("node", &[0, 12]),
        ("close", &[0, 12]),
        ("ring encode", &[0, 1, 9]),
        ("ring decode", &[0, 1, 9]),
        ("ring put", &[0, 1, 7, 9, 10]),
        ("ring take", &[0, 1, 9, 10, 11]),
    ] {
        assert_eq!(report.numbers_of(call), numbers, "{call}");
    }
}

/// Faults that the driver's side sees, with nothing to compare with.
#[test]
fn wrong_builds_break_a_promise_of_lists() {
    for fault in [
        Fault::RoomForAFullRing,
        Fault::LostMarkAfterSwitchOn,
        Fault::PacketOf33Events,
        Fault::PacketEventByEvent,
        Fault::DevSetMissing,
        Fault::GapShownTwice,
        Fault::CurrentSlotAfterRemove,
        Fault::AccelerationOf21,
        Fault::AccelerationModulo65536,
        Fault::MotionRoundedDown,
        Fault::MotionOf32768,
        Fault::WheelScaled,
        Fault::CoordinateOf65536,
        Fault::MissingAxisAsZero,
        Fault::PositionAfterSwitchOn,
        Fault::AxisRepeated,
        Fault::HwheelAccepted,
        Fault::ButtonsBeforeMotion,
        Fault::FenceFirst,
        Fault::FenceMissing,
        Fault::GapInRevision1,
        Fault::SwitchOnToldInRevision1,
        Fault::PlugToldInRevision1,
        Fault::RingPlaceModulo50,
        Fault::RingIndexMovedAtRefusal,
    ] {
        let broken = delivery::run(&Model { fault }, SEED, CALLS).broken;
        assert!(broken.is_some(), "{fault:?} breaks no promise");
    }
}
