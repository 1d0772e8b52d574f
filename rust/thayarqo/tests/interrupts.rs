//! A packet raises an interrupt where the guest has asked for them, until the guest dismisses it.
use thayarqo::codes::REL_X;
use thayarqo::register::{CLIENT_REV, CONTROL, CONTROL_INTERRUPTS, CONTROL_ON, ISR};
use thayarqo::{Answer, Device, Entry, Event, Geometry, Packet, Refusal};

fn running_device(control: u32) -> Answer<Device> {
    let mut device = Device::new(Geometry::new(1, 8, 68)?);
    device.add(4, &Entry::new("mouse").offer_rel())?;
    device.write(CLIENT_REV, 4, 2)?;
    device.write(CONTROL, 4, control)?;
    Ok(device)
}

#[test]
fn a_packet_raises_an_interrupt() -> Answer<()> {
    let mut device = running_device(CONTROL_ON | CONTROL_INTERRUPTS)?;
    assert!(!device.has_interrupt());
    let moved = Packet::new(4, &[Event::rel(REL_X, 1)])?;
    for _ in 0..2 {
        device.put_packet(&moved)?;
        assert!(device.has_interrupt());
        assert_eq!(device.read(ISR, 4), Ok(1));
        device.write(ISR, 4, 0)?;
        assert!(!device.has_interrupt());
        assert_eq!(device.read(ISR, 4), Ok(0));
    }
    Ok(())
}

#[test]
fn a_refused_packet_raises_none() -> Answer<()> {
    let mut device = running_device(CONTROL_ON | CONTROL_INTERRUPTS)?;
    assert_eq!(device.put_packet_bytes(4, &[]), Err(Refusal::Malformed));
    assert!(!device.has_interrupt());
    Ok(())
}

#[test]
fn without_interrupts_there_is_none() -> Answer<()> {
    let mut device = running_device(CONTROL_ON)?;
    device.put_packet(&Packet::new(4, &[Event::rel(REL_X, 1)])?)?;
    assert!(!device.has_interrupt());
    assert_eq!(device.read(ISR, 4), Ok(0));
    Ok(())
}
