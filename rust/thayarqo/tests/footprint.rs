//! What a live call writes to the shared pages, in both revisions: the first eight bytes of the records that it puts, WRITE_PTR, at a
//! switch-on READ_PTR too, the entry of a slot that is plugged, and no other word.
mod common;

use common::{clicks, mouse, switch_on, Guarded};
use std::sync::atomic::Ordering;
use thayarqo::live::LiveDevice;
use thayarqo::register::{CONTROL, CONTROL_ON};
use thayarqo::{Answer, Device, Geometry, Packet, Refusal, Revision};

const BOTH: [Revision; 2] = [Revision::One, Revision::Two];

const AREA: usize = 0;
const PAGE: usize = 1;

/// Records and entries have many words that no call writes.
const RECORD_WORDS: usize = 64 / 4;
const ENTRY_WORDS: usize = 256 / 4;

fn geometry() -> Answer<Geometry> {
    Geometry::new(1, 64, 256)
}

fn running_device(pages: &Guarded, revision: Revision) -> Answer<LiveDevice<'_>> {
    let mut device = LiveDevice::new(geometry()?, pages.shared(AREA), pages.shared(PAGE))?;
    device.add(4, &mouse())?;
    switch_on(&mut device, revision)?;
    Ok(device)
}

/// The numbers of both pages.
fn numbers(pages: &Guarded) -> [Vec<u32>; 2] {
    [AREA, PAGE].map(|stretch| {
        let words = pages.words(stretch).iter();
        words.map(|word| u32::from_le(word.load(Ordering::Relaxed))).collect()
    })
}

/// Fills both pages with a pattern, and hands it back. READ_PTR alone is as it is given.
fn fill(pages: &Guarded, read: u32) -> [Vec<u32>; 2] {
    for stretch in [AREA, PAGE] {
        for (word, number) in pages.words(stretch).iter().zip(0xC0DE_0000_u32..) {
            word.store(number.to_le(), Ordering::Relaxed);
        }
    }
    pages.words(AREA)[0].store(read.to_le(), Ordering::Relaxed);
    numbers(pages)
}

fn word_of(bytes: &[u8], word: usize) -> u32 {
    let (words, _) = bytes.as_chunks();
    u32::from_le_bytes(words[word])
}

/// Sets the records from the first one on as the host has them, and where there are any WRITE_PTR.
fn put_records(area: &mut [u32], device: &Device, first: u32) {
    let mut index = first;
    while index != device.write_index() {
        let place = RECORD_WORDS * (index as usize + 1);
        for word in [1, place, place + 1] {
            area[word] = word_of(device.area(), word);
        }
        index = (index + 1) % device.geometry().ring_length();
    }
}

fn check_puts(revision: Revision) -> Answer<()> {
    let pages = Guarded::pages(geometry()?);
    let mut device = running_device(&pages, revision)?;
    let mut turns = 0;
    for count in (1..=32).chain(1..=32) {
        let first = device.device().write_index();
        let [mut area, page] = fill(&pages, first);
        let events = clicks(count);
        if count % 2 == 0 {
            device.put_packet(&Packet::new(4, &events)?)?;
        } else {
            let bytes: Vec<u8> = events.iter().flat_map(|event| event.bytes()).collect();
            device.put_packet_bytes(4, &bytes)?;
        }
        assert_ne!(device.device().write_index(), first);
        turns += u32::from(device.device().write_index() < first);
        put_records(&mut area, device.device(), first);
        assert!(numbers(&pages) == [area, page], "another word after {count} events");
    }
    assert!(turns > 10, "the ring came round {turns} times");
    assert!(pages.is_whole());
    Ok(())
}

#[test]
fn a_put_writes_its_records_and_the_pointer() -> Answer<()> {
    BOTH.into_iter().try_for_each(check_puts)
}

#[test]
fn a_refused_put_writes_nothing() -> Answer<()> {
    for revision in BOTH {
        let pages = Guarded::pages(geometry()?);
        let mut device = running_device(&pages, revision)?;
        let next = device.device().write_index() + 1;
        for (read, refusal) in [(63, Refusal::BadIndex), (next, Refusal::NoRoom)] {
            let before = fill(&pages, read);
            assert_eq!(device.put_packet(&Packet::new(4, &clicks(32))?), Err(refusal));
            assert!(numbers(&pages) == before, "{refusal}");
        }
    }
    Ok(())
}

fn check_plugging(revision: Revision) -> Answer<()> {
    let pages = Guarded::pages(geometry()?);
    let mut device = running_device(&pages, revision)?;
    for adds in [true, false] {
        let first = device.device().write_index();
        let [mut area, mut page] = fill(&pages, first);
        match adds {
            true => device.add(5, &mouse())?,
            false => device.remove(5)?,
        }
        assert_eq!(device.device().write_index() == first, revision == Revision::One);
        put_records(&mut area, device.device(), first);
        let entry = 5 * ENTRY_WORDS..6 * ENTRY_WORDS;
        for (number, word) in page[entry.clone()].iter_mut().zip(entry) {
            *number = word_of(device.device().page(), word);
        }
        assert!(numbers(&pages) == [area, page], "another word");
    }
    Ok(())
}

#[test]
fn plugging_writes_the_entry_as_well() -> Answer<()> {
    BOTH.into_iter().try_for_each(check_plugging)
}

#[test]
fn a_switch_on_writes_both_pointers_and_the_first_records() -> Answer<()> {
    for revision in BOTH {
        let pages = Guarded::pages(geometry()?);
        let mut device = running_device(&pages, revision)?;
        device.put_packet(&Packet::new(4, &clicks(1))?)?;
        device.write(CONTROL, 4, 0)?;
        let [mut area, page] = fill(&pages, 7);
        device.write(CONTROL, 4, CONTROL_ON)?;
        (area[0], area[1]) = (0, 0);
        put_records(&mut area, device.device(), 0);
        assert!(numbers(&pages) == [area, page], "another word in {revision:?}");
    }
    Ok(())
}
