//! A pen and a touch screen, as the device's paper shows them: the records in the ring, and what a driver makes of them.
use thayarqo::codes::*;
use thayarqo::register::{CLIENT_REV, CONTROL, CONTROL_ON};
use thayarqo::{Answer, Device, Driver, Entry, Event, Geometry, Packet, Refusal, Source, Told, PACKET_EVENTS};

fn pen() -> Answer<Entry> {
    let entry = Entry::new("pen").offer_abs(ABS_X)?.offer_abs(ABS_Y)?;
    entry
        .offer_abs(ABS_PRESSURE)?
        .offer_key(BTN_TOOL_PEN)?
        .offer_key(BTN_TOUCH)
}

fn touch_screen() -> Answer<Entry> {
    let entry = Entry::new("touch")
        .offer_abs(ABS_MT_SLOT)?
        .offer_abs(ABS_MT_TRACKING_ID)?;
    entry.offer_abs(ABS_MT_POSITION_X)?.offer_abs(ABS_MT_POSITION_Y)
}

fn packets() -> Answer<Vec<Packet>> {
    let (x, y) = (ABS_X, ABS_Y);
    Ok(vec![
        Packet::new(
            4,
            &[Event::abs(x, 345), Event::abs(y, 987), Event::key(BTN_TOOL_PEN, true)],
        )?,
        Packet::new(4, &[Event::abs(x, 346)])?,
        Packet::new(4, &[Event::abs(ABS_PRESSURE, 45), Event::key(BTN_TOUCH, true)])?,
        Packet::new(7, &[Event::abs(ABS_MT_SLOT, 0), Event::abs(ABS_MT_TRACKING_ID, 45)])?,
        Packet::new(7, &[Event::abs(ABS_MT_TRACKING_ID, -1)])?,
    ])
}

fn running_device() -> Answer<Device> {
    let mut device = Device::new(Geometry::new(1, 8, 68)?);
    device.add(4, &pen()?)?;
    device.add(7, &touch_screen()?)?;
    device.write(CLIENT_REV, 4, 2)?;
    device.write(CONTROL, 4, CONTROL_ON)?;
    for packet in packets()? {
        device.put_packet(&packet)?;
    }
    Ok(device)
}

/// The records that a copy-out hands over, as text.
fn records(out: &[u8]) -> Vec<String> {
    let (events, _) = out.as_chunks();
    events.iter().map(|bytes| Event::of_bytes(*bytes).to_string()).collect()
}

#[test]
fn the_records_stand_in_order() -> Answer<()> {
    let mut device = running_device()?;
    let mut out = [0; 8 * 64];
    let count = Driver::new(device.geometry()).copy_out(device.area_mut(), 64, &mut out)?;
    let text = records(&out[..8 * count]).join(", ");
    assert_eq!(
        text,
        "DEV_RESET 65535, DEV_CONF 4, DEV_CONF 7, \
         DEV_SET 4, ABS_X 345, ABS_Y 987, BTN_TOOL_PEN 1, SYN_REPORT 0, ABS_X 346, SYN_REPORT 0, \
         ABS_PRESSURE 45, BTN_TOUCH 1, SYN_REPORT 0, \
         DEV_SET 7, ABS_MT_SLOT 0, ABS_MT_TRACKING_ID 45, SYN_REPORT 0, ABS_MT_TRACKING_ID -1, SYN_REPORT 0"
    );
    Ok(())
}

/// What a driver tells until it is refused, and by what.
fn told_until_refused(driver: &mut Driver, area: &mut [u8]) -> (Vec<Told>, Refusal) {
    let mut told = Vec::new();
    loop {
        match driver.step(area) {
            Ok(Told::Nothing) => {}
            Ok(what) => told.push(what),
            Err(refusal) => return (told, refusal),
        }
    }
}

#[test]
fn the_driver_tells_what_was_put() -> Answer<()> {
    let mut device = running_device()?;
    let mut driver = Driver::new(device.geometry());
    let told = told_until_refused(&mut driver, device.area_mut());
    let sent = packets()?;
    let mut expected = vec![Told::ResetAll, Told::Conf(4), Told::Conf(7), Told::Set(Source::Slot(4))];
    expected.extend(sent[..3].iter().copied().map(Told::Packet));
    expected.push(Told::Set(Source::Slot(7)));
    expected.extend(sent[3..].iter().copied().map(Told::Packet));
    assert_eq!(told, (expected, Refusal::NothingToRead));
    assert_eq!(driver.lookup(device.page(), 7)?, touch_screen()?);
    Ok(())
}

/// What a driver that has read all before it tells of one more packet.
fn told_of(packet: Packet) -> Answer<(Vec<Told>, Refusal)> {
    let mut device = running_device()?;
    let mut driver = Driver::new(device.geometry());
    told_until_refused(&mut driver, device.area_mut());
    device.put_packet(&packet)?;
    Ok(told_until_refused(&mut driver, device.area_mut()))
}

#[test]
fn a_packet_of_the_most_events_comes_whole() -> Answer<()> {
    let events: Vec<Event> = (0..PACKET_EVENTS)
        .map(|number| Event::abs(ABS_X, number as i32))
        .collect();
    let packet = Packet::new(4, &events)?;
    let expected = vec![Told::Set(Source::Slot(4)), Told::Packet(packet)];
    assert_eq!(told_of(packet)?, (expected, Refusal::NothingToRead));
    Ok(())
}

/// A screen that doesn't number its contacts ends each with a record of its own.
#[test]
fn contacts_without_a_number_end_with_a_report() -> Answer<()> {
    let contact = |x| [Event::abs(ABS_MT_POSITION_X, x), Event::mt_report()];
    let packet = Packet::new(7, &[contact(200), contact(300)].concat())?;
    assert_eq!(Event::mt_report().to_string(), "SYN_MT_REPORT 0");
    assert_eq!(told_of(packet)?, (vec![Told::Packet(packet)], Refusal::NothingToRead));
    Ok(())
}
