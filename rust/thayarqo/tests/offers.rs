//! A packet of one event is refused just where its slot's entry doesn't offer the event, for every type and code. An entry is held to
//! the list of events that it was made of.
use std::collections::HashSet;
use std::ops::RangeInclusive;
use thayarqo::codes::{EV_ABS, EV_KEY, EV_REL, EV_SYN, SYN_MT_REPORT};
use thayarqo::register::{CLIENT_REV, CONTROL, CONTROL_ON};
use thayarqo::{Answer, Device, Entry, Geometry, Refusal};

const ABS_CODES: RangeInclusive<u16> = 0..=63;
const KEY_CODES: RangeInclusive<u16> = 0x100..=0x15F;

/// An entry, and the types and codes that it offers.
struct Offer {
    entry: Entry,
    events: HashSet<(u16, u16)>,
}

impl Offer {
    /// Of the absolute codes and buttons those that are picked; of the relative codes all or none.
    fn new(has_relative: bool, is_picked: impl Fn(u16) -> bool) -> Answer<Offer> {
        let mut entry = Entry::new("any");
        let mut events = HashSet::from([(EV_SYN, SYN_MT_REPORT)]);
        if has_relative {
            entry = entry.offer_rel();
            events.extend((0..32).map(|code| (EV_REL, code)));
        }
        for code in ABS_CODES.filter(|&code| is_picked(code)) {
            entry = entry.offer_abs(code)?;
            events.insert((EV_ABS, code));
        }
        for code in KEY_CODES.filter(|&code| is_picked(code)) {
            entry = entry.offer_key(code)?;
            events.insert((EV_KEY, code));
        }
        Ok(Offer { entry, events })
    }
}

/// Nothing but reports, everything, and masks in which each word and each bit of a word comes set and clear.
fn offers() -> Answer<Vec<Offer>> {
    Ok(vec![
        Offer::new(false, |_| false)?,
        Offer::new(true, |_| true)?,
        Offer::new(true, |_| false)?,
        Offer::new(false, |code| code % 2 == 0)?,
        Offer::new(true, |code| code % 3 == 1)?,
        Offer::new(false, |code| code / 32 % 2 == 1)?,
    ])
}

fn running_device(entry: &Entry) -> Answer<Device> {
    let mut device = Device::new(Geometry::new(1, 8, 68)?);
    device.add(0, entry)?;
    device.write(CLIENT_REV, 4, 2)?;
    device.write(CONTROL, 4, CONTROL_ON)?;
    Ok(device)
}

/// Whether the device takes such an event. Its guest reads at once, so that there is always room.
fn takes(device: &mut Device, kind: u16, code: u16) -> bool {
    let mut event = [0; 8];
    event[..2].copy_from_slice(&kind.to_le_bytes());
    event[2..4].copy_from_slice(&code.to_le_bytes());
    let answer = device.put_packet_bytes(0, &event);
    device.set_read_pointer(device.write_index());
    assert!(matches!(answer, Ok(()) | Err(Refusal::NotOffered)), "{answer:?}");
    answer.is_ok()
}

fn assert_offered(kinds: impl Iterator<Item = u16> + Clone, codes: impl Iterator<Item = u16> + Clone) -> Answer<()> {
    for Offer { entry, events } in offers()? {
        let mut device = running_device(&entry)?;
        for kind in kinds.clone() {
            for code in codes.clone() {
                let is_offered = events.contains(&(kind, code));
                assert_eq!(
                    takes(&mut device, kind, code),
                    is_offered,
                    "{kind}, {code:#x}, {entry:?}"
                );
            }
        }
    }
    Ok(())
}

#[test]
fn every_code_of_the_types_below_128() -> Answer<()> {
    assert_offered(0..128, 0..=u16::MAX)
}

/// A type that is one of the four modulo a power of two is another type all the same.
#[test]
fn every_type_with_the_codes_at_the_edges() -> Answer<()> {
    let edges = [0, 1, 2, 3, 31, 32, 63, 64, 0xFF, 0x100, 0x110, 0x15F, 0x160, u16::MAX];
    assert_offered(0..=u16::MAX, edges.into_iter())
}
