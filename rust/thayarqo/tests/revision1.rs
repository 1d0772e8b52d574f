//! A device that serves a guest of revision 1: its registers, and the groups that packets become.
use thayarqo::codes::*;
use thayarqo::register::{ACCELERATION, CLIENT_REV, CONTROL, CONTROL_INTERRUPTS, CONTROL_ON, ISR, READ_PTR, REV};
use thayarqo::{Answer, Device, Entry, Event, Geometry, Packet, Refusal, Revision, Revision1Driver};

const SLOT: u32 = 4;

fn tablet() -> Answer<Entry> {
    let tablet = Entry::new("tablet").offer_rel().offer_abs(ABS_X)?.offer_abs(ABS_Y)?;
    tablet
        .offer_key(BTN_LEFT)?
        .offer_key(BTN_RIGHT)?
        .offer_key(BTN_MIDDLE)?
        .offer_key(BTN_SIDE)
}

/// A ring of 63 records. The guest never writes CLIENT_REV.
fn running_device() -> Answer<Device> {
    let mut device = Device::new(Geometry::new(1, 64, 72)?);
    device.add(SLOT, &tablet()?)?;
    device.write(CONTROL, 4, CONTROL_ON)?;
    Ok(device)
}

fn put(device: &mut Device, events: &[Event]) -> Answer<()> {
    device.put_packet(&Packet::new(SLOT, events)?)
}

/// The groups until there is nothing to read, as text.
fn received(device: &mut Device) -> Vec<String> {
    let mut driver = Revision1Driver::new(device.geometry());
    let mut groups = Vec::new();
    loop {
        match driver.receive(device.area_mut()) {
            Ok(Some(group)) => groups.push(group.to_string()),
            Ok(None) => {}
            Err(refusal) => {
                assert_eq!(refusal, Refusal::NothingToRead);
                return groups;
            }
        }
    }
}

#[test]
fn client_rev_chooses_the_revision() -> Answer<()> {
    let mut device = Device::new(Geometry::new(1, 8, 68)?);
    assert_eq!((device.revision(), device.read(REV, 4)), (Some(Revision::One), Ok(1)));
    for (number, revision, rev, on) in [
        (7, None, 2, false),
        (1, Some(Revision::One), 1, true),
        (0, None, 2, false),
        (2, Some(Revision::Two), 2, true),
        (258, None, 2, false),
    ] {
        device.write(CLIENT_REV, 4, number)?;
        assert_eq!(
            (device.revision(), device.read(REV, 4)),
            (revision, Ok(rev)),
            "{number}"
        );
        device.write(CONTROL, 4, CONTROL_ON)?;
        assert_eq!(device.is_on(), on, "{number}");
        device.write(CONTROL, 4, 0)?;
    }
    Ok(())
}

#[test]
fn acceleration_is_kept_and_hidden_from_others() -> Answer<()> {
    let mut device = Device::new(Geometry::new(1, 8, 68)?);
    assert_eq!(device.read(ACCELERATION, 4), Ok(10));
    for (number, kept) in [(20, 20), (21, 20), (0, 20), (266, 20), (1, 1)] {
        device.write(ACCELERATION, 4, number)?;
        assert_eq!(
            (device.acceleration(), device.read(ACCELERATION, 4)),
            (kept, Ok(u32::from(kept)))
        );
    }
    device.write(CLIENT_REV, 4, 2)?;
    device.write(ACCELERATION, 4, 5)?;
    assert_eq!((device.acceleration(), device.read(ACCELERATION, 4)), (1, Ok(0)));
    Ok(())
}

#[test]
fn a_packet_becomes_a_group() -> Answer<()> {
    let mut device = running_device()?;
    assert!(received(&mut device).is_empty());
    put(
        &mut device,
        &[
            Event::rel(REL_WHEEL, -1),
            Event::key(BTN_RIGHT, true),
            Event::abs(ABS_Y, 65535),
            Event::key(BTN_LEFT, false),
            Event::rel(REL_Y, -3),
            Event::key(BTN_RIGHT, false),
        ],
    )?;
    let group = "RELATIVE 0 -3, ABSOLUTE 0 65535, RIGHT_BUTTON_DOWN, LEFT_BUTTON_UP, RIGHT_BUTTON_UP, VWHEEL -1, FENCE";
    assert_eq!(received(&mut device), [group]);
    put(&mut device, &[Event::abs(ABS_X, 7)])?;
    assert_eq!(received(&mut device), ["ABSOLUTE 7 65535, FENCE"]);
    assert_eq!(device.current_slot(), None);
    Ok(())
}

#[test]
fn motion_is_scaled_and_cut_towards_zero() -> Answer<()> {
    let mut device = running_device()?;
    for (acceleration, motion, group) in [
        (1, -19, Some("RELATIVE -1 0, FENCE")),
        (15, 3, Some("RELATIVE 4 0, FENCE")),
        (20, 16384, None),
        (20, -16384, Some("RELATIVE -32768 0, FENCE")),
        (1, 327_679, Some("RELATIVE 32767 0, FENCE")),
        (1, 327_680, None),
        (1, -327_689, Some("RELATIVE -32768 0, FENCE")),
        (1, -327_690, None),
    ] {
        device.write(ACCELERATION, 4, acceleration)?;
        let answer = put(&mut device, &[Event::rel(REL_X, motion)]);
        let expected = group.map(|_| ()).ok_or(Refusal::NotOffered);
        assert_eq!(answer, expected, "{motion} at {acceleration}");
        assert_eq!(received(&mut device), Vec::from_iter(group));
    }
    Ok(())
}

#[test]
fn what_has_no_form_is_refused() -> Answer<()> {
    let mut device = running_device()?;
    let before = device.clone();
    let repeated = [REL_X, REL_Y, REL_WHEEL].map(|code| [Event::rel(code, 1); 2]);
    let placed_twice = [ABS_X, ABS_Y].map(|code| [Event::abs(code, 1); 2]);
    for events in repeated.iter().chain(&placed_twice) {
        assert_eq!(put(&mut device, events), Err(Refusal::NotOffered));
    }
    for event in [
        Event::rel(REL_HWHEEL, 1),
        Event::key(BTN_SIDE, true),
        Event::mt_report(),
        Event::abs(ABS_X, 65536),
        Event::abs(ABS_Y, -1),
    ] {
        assert_eq!(put(&mut device, &[event]), Err(Refusal::NotOffered), "{event}");
    }
    assert_eq!(device, before);
    put(&mut device, &[Event::key(BTN_LEFT, true); 32])
}

#[test]
fn nothing_is_told_of_what_was_lost() -> Answer<()> {
    let mut device = running_device()?;
    let clicks = [Event::key(BTN_LEFT, true), Event::key(BTN_LEFT, false)].repeat(16);
    put(&mut device, &clicks)?;
    assert_eq!(put(&mut device, &clicks), Err(Refusal::NoRoom));
    put(&mut device, &[Event::rel(REL_X, 1)])?;
    assert!(device.has_lost());
    assert_eq!(
        received(&mut device).last().map(String::as_str),
        Some("RELATIVE 1 0, FENCE")
    );
    device.write(CONTROL, 4, 0)?;
    device.write(CONTROL, 4, CONTROL_ON)?;
    assert!(!device.has_lost());
    Ok(())
}

#[test]
fn slots_come_and_go_in_silence() -> Answer<()> {
    let mut device = running_device()?;
    for pointer in [0, 63, u32::MAX] {
        device.write(READ_PTR, 4, pointer)?;
        let area = device.area().to_vec();
        device.add(5, &tablet()?)?;
        device.remove(5)?;
        assert!(device.area() == area, "READ_PTR {pointer}");
    }
    assert_eq!(put(&mut device, &[Event::rel(REL_X, 1)]), Err(Refusal::BadIndex));
    Ok(())
}

#[test]
fn the_fence_raises_an_interrupt() -> Answer<()> {
    let mut device = running_device()?;
    put(&mut device, &[Event::rel(REL_X, 1)])?;
    assert!(!device.has_interrupt());
    device.write(CONTROL, 4, CONTROL_ON | CONTROL_INTERRUPTS)?;
    put(&mut device, &[Event::rel(REL_X, 1)])?;
    assert_eq!((device.has_interrupt(), device.read(ISR, 4)), (true, Ok(1)));
    Ok(())
}
