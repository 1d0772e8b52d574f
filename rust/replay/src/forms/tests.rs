//! Lines, and the commands that they stand for.
use super::{command, Command, Memory};
use thayarqo::codes::{ABS_X, BTN_TOUCH, EV_SYN};
use thayarqo::{Entry, Event, Revision};

#[test]
fn a_packet_is_a_slot_and_pairs() {
    let events = vec![
        Event::abs(ABS_X, -3),
        Event::key(BTN_TOUCH, true),
        Event {
            kind: EV_SYN,
            code: 9,
            value: 255,
        },
    ];
    assert_eq!(
        command(" packet 4  ABS_X -3\tBTN_TOUCH 1 0:9 0xff "),
        Ok(Command::Packet { slot: 4, events })
    );
    let nothing = Command::Packet {
        slot: 4,
        events: vec![],
    };
    assert_eq!(command("packet 4"), Ok(nothing));
}

#[test]
fn an_entry_has_a_name_and_codes() {
    let entry = Entry::new("pad").offer_rel().offer_abs(ABS_X).expect("a code below 64");
    assert_eq!(
        command("add 7 pad REL ABS_X"),
        Ok(Command::Add {
            slot: 7,
            entry: Box::new(entry)
        })
    );
}

#[test]
fn accesses_are_four_bytes_wide_unless_they_say_so() {
    assert_eq!(
        command("read 0x100"),
        Ok(Command::Read {
            offset: 0x100,
            width: 4
        })
    );
    assert_eq!(
        command("write READ_PTR -1 2"),
        Ok(Command::Write {
            offset: 0x1000,
            value: u32::MAX,
            width: 2
        })
    );
}

#[test]
fn bytes_are_poked() {
    assert_eq!(
        command("poke page 40 0 0xff"),
        Ok(Command::Poke {
            memory: Memory::Page,
            offset: 40,
            bytes: vec![0, 255]
        })
    );
}

#[test]
fn steps_and_other_commands_are_repeated() {
    let steps = Command::Repeat {
        count: 3,
        command: Box::new(Command::Step),
    };
    assert_eq!(command("step"), Ok(Command::Step));
    assert_eq!(command("step 3"), Ok(steps.clone()));
    assert_eq!(command("repeat 3 step"), Ok(steps));
}

#[test]
fn the_switch_may_ask_for_a_revision_and_interrupts() {
    for (line, revision, interrupts) in [
        ("on", Revision::Two, false),
        ("on interrupts", Revision::Two, true),
        ("on revision 1", Revision::One, false),
        ("on revision 2 interrupts", Revision::Two, true),
    ] {
        assert_eq!(command(line), Ok(Command::On { revision, interrupts }), "{line}");
    }
}

#[test]
fn a_bad_line_is_told_by_what_is_wrong() {
    let bad = [
        ("", "a command is missing"),
        ("Packet 4", "Packet is no command"),
        ("packet", "SLOT is missing"),
        ("packet -1", "SLOT has to be a number from 0 to 4294967295, not -1"),
        ("packet 4 ABS_X", "the VALUE of ABS_X is missing"),
        ("packet 4 ABS_PRUSSURE 45", "ABS_PRUSSURE is no code"),
        ("add 4", "NAME is missing"),
        ("add 4 pad SYN_REPORT", "SYN_REPORT can't be offered"),
        ("on interrupt", "interrupt isn't the word interrupts"),
        ("on revision", "1 or 2 is missing"),
        ("on revision 3", "3 is no revision"),
        ("on revision 1 on", "on isn't the word interrupts"),
        ("off now", "now is one word too many"),
        ("read", "REGISTER or OFFSET is missing"),
        ("write ISR", "VALUE is missing"),
        ("poke ring 0 1", "ring is neither area nor page"),
        ("poke area 0", "BYTE is missing"),
        ("poke area 0 256", "BYTE has to be a number from 0 to 255, not 256"),
        ("step 0", "COUNT has to be a number from 1 to 1000000, not 0"),
        ("repeat 2", "a command is missing"),
        (
            "repeat 2 step 2",
            "a command that is repeated already can't be repeated",
        ),
        ("repeat 2 off now", "now is one word too many"),
    ];
    for (line, wrong) in bad {
        assert_eq!(command(line), Err(wrong.into()), "{line}");
    }
}
