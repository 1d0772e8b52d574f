//! Every refusal is reached, by its name and number, and says why in words of its own.
use std::collections::HashSet;
use thayarqo::codes::{ABS_X, BTN_LEFT, REL_X};
use thayarqo::register::{CLIENT_REV, CONTROL, CONTROL_ON, MAGIC, READ_PTR};
use thayarqo::{Answer, Device, Driver, Entry, Event, Geometry, Packet, Refusal, Settings};

fn running_device() -> Answer<Device> {
    let mut device = Device::new(Geometry::new(1, 64, 72)?);
    device.add(4, &Entry::new("mouse").offer_rel())?;
    device.write(CLIENT_REV, 4, 2)?;
    device.write(CONTROL, 4, CONTROL_ON)?;
    Ok(device)
}

fn motions(count: usize) -> Packet {
    Packet::new(4, &vec![Event::rel(REL_X, 1); count]).expect("a count of 1 to 32")
}

#[test]
fn a_geometry_is_the_librarys() {
    let page = [0; thayarqo::PAGE_LENGTH];
    let mut out = [0; thayarqo::KNOWN_ENTRY_LENGTH];
    for pages in 0..10 {
        for record_size in 0..70 {
            for entry_size in 0..262 {
                let numbers = thayarqo_sys::Geometry {
                    pages,
                    record_size,
                    entry_size,
                };
                let answer = thayarqo_sys::safe::lookup(numbers, &page, 0, &mut out);
                let is_allowed = answer != Refusal::Invalid.number();
                assert_eq!(
                    Geometry::new(pages, record_size, entry_size).is_ok(),
                    is_allowed,
                    "{numbers:?}"
                );
            }
        }
    }
}

#[test]
fn accesses_are_refused() -> Answer<()> {
    let mut device = running_device()?;
    let before = device.clone();
    assert_eq!(device.read(MAGIC, 4), Ok(0x584D_4F55));
    assert_eq!(device.read(MAGIC, 2), Err(Refusal::BadAccess));
    assert_eq!(device.write(MAGIC, 4, 1), Err(Refusal::ReadOnly));
    assert_eq!(device.write(0x200, 4, 1), Err(Refusal::NoRegister));
    assert_eq!(device, before);
    Ok(())
}

#[test]
fn packets_are_refused() -> Answer<()> {
    let mut device = running_device()?;
    let before = device.clone();
    assert_eq!(
        Device::new(device.geometry()).put_packet(&motions(1)),
        Err(Refusal::DeviceOff)
    );
    assert_eq!(
        device.put_packet(&Packet::new(5, motions(1).events())?),
        Err(Refusal::BadSlot)
    );
    assert_eq!(
        device.put_packet(&Packet::new(4, &[Event::abs(ABS_X, 1)])?),
        Err(Refusal::NotOffered)
    );
    assert_eq!(Packet::new(4, &[]), Err(Refusal::Malformed));
    assert_eq!(Packet::new(4, &[Event::default(); 33]), Err(Refusal::Malformed));
    assert_eq!(device, before);
    device.put_packet(&motions(32))?;
    assert_eq!(device.put_packet(&motions(32)), Err(Refusal::NoRoom));
    assert!(device.has_lost());
    Ok(())
}

#[test]
fn events_that_are_no_packet_are_refused() -> Answer<()> {
    let mut device = running_device()?;
    assert_eq!(
        Device::new(device.geometry()).put_packet_bytes(4, &[]),
        Err(Refusal::DeviceOff)
    );
    assert_eq!(device.put_packet_bytes(5, &[]), Err(Refusal::BadSlot));
    assert_eq!(device.put_packet_bytes(4, &[]), Err(Refusal::Malformed));
    assert_eq!(device.put_packet_bytes(4, &[0; 8 * 33]), Err(Refusal::Malformed));
    assert_eq!(device.put_packet_bytes(4, &[2; 7]), Err(Refusal::Invalid));
    device.put_packet_bytes(4, &Event::rel(REL_X, 1).bytes())
}

#[test]
fn an_entry_offers_what_the_library_accepts() -> Answer<()> {
    let geometry = Geometry::new(8, 8, 68)?;
    let entries = [
        Entry::new("mouse").offer_rel().offer_key(BTN_LEFT)?,
        Entry::new("pen").offer_abs(ABS_X)?.offer_abs(63)?.offer_key(0x15F)?,
    ];
    for entry in entries {
        let mut device = Device::new(geometry);
        device.add(4, &entry)?;
        device.write(CLIENT_REV, 4, 2)?;
        device.write(CONTROL, 4, CONTROL_ON)?;
        for (kind, code) in (0..8).flat_map(|kind| (0..0x170).map(move |code| (kind, code))) {
            let event = Event { kind, code, value: 1 };
            let answer = device.put_packet(&Packet::new(4, &[event])?);
            assert_eq!(answer.is_ok(), entry.offers(kind, code), "{event}");
        }
    }
    Ok(())
}

#[test]
fn codes_without_a_bit_are_refused() {
    let entry = Entry::new("pen");
    for code in [64, 0x100, u16::MAX] {
        assert_eq!(entry.offer_abs(code), Err(Refusal::Malformed), "{code}");
    }
    for code in [0, 0xFF, 0x160, u16::MAX] {
        assert_eq!(entry.offer_key(code), Err(Refusal::Malformed), "{code}");
    }
}

#[test]
fn an_offer_is_the_entry_pages() -> Answer<()> {
    let mut device = running_device()?;
    device.page_mut().fill(0);
    assert_eq!(device.put_packet(&motions(1)), Err(Refusal::NotOffered));
    assert_eq!(device.page(), [0; thayarqo::PAGE_LENGTH]);
    Ok(())
}

#[test]
fn a_guests_impossible_read_pointer_is_refused() -> Answer<()> {
    let mut device = running_device()?;
    device.write(READ_PTR, 4, 63)?;
    assert_eq!(device.put_packet(&motions(1)), Err(Refusal::BadIndex));
    assert_eq!(device.add(5, &Entry::new("pen")), Err(Refusal::BadIndex));
    assert_eq!(
        Driver::new(device.geometry()).step(device.area_mut()),
        Err(Refusal::BadIndex)
    );
    device.write(READ_PTR, 4, 62)?;
    device.put_packet(&motions(1))
}

#[test]
fn slots_and_entries_are_refused() -> Answer<()> {
    let mut device = running_device()?;
    assert_eq!(device.add(4, &Entry::new("mouse")), Err(Refusal::BadSlot));
    assert_eq!(device.add(56, &Entry::new("mouse")), Err(Refusal::BadSlot));
    assert_eq!(device.add_bytes(5, &[0; 72]), Err(Refusal::Malformed));
    assert_eq!(device.add_bytes(5, &[0; 71]), Err(Refusal::Invalid));
    let driver = Driver::new(device.geometry());
    assert_eq!(driver.lookup(device.page(), 4)?.name(), b"mouse");
    device.remove(4)?;
    assert_eq!(device.remove(4), Err(Refusal::BadSlot));
    assert_eq!(driver.lookup(device.page(), 4), Err(Refusal::BadSlot));
    Ok(())
}

#[test]
fn settings_are_refused() -> Answer<()> {
    let mut settings = Settings::new();
    settings.node("width", "4294967295")?;
    for bad in ["4294967296", "01", "", "x"] {
        assert_eq!(settings.node("width", bad), Err(Refusal::BadSetting), "{bad:?}");
    }
    assert_eq!(settings.close()?.width, u32::MAX);
    Ok(())
}

#[test]
fn each_answer_has_its_words() {
    assert_eq!(Refusal::check(0), Ok(()));
    let refusals: Vec<Refusal> = (1..=12).filter_map(|number| Refusal::check(number).err()).collect();
    let words: HashSet<String> = refusals.iter().map(Refusal::to_string).collect();
    assert_eq!(words.len(), 12);
    let numbers: Vec<u8> = refusals.iter().map(|refusal| refusal.number()).collect();
    assert_eq!(numbers, (1..=12).collect::<Vec<u8>>());
}
