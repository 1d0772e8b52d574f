//! The keyboard ring: each event's bytes, what is refused, and the order of what is taken.
use thayarqo::RingEvent::{TouchDown, TouchMotion, TouchOrient, TouchShape, TouchSyn, TouchUp};
use thayarqo::{Answer, Refusal, RingConsumer, RingEvent, RingProducer, Settings, RING_PAGE_LENGTH};

const CONTACT_LIMIT: u32 = 10;

/// Each event with its bytes from the start on; the rest are zeros.
fn events() -> Vec<(RingEvent, Vec<u8>)> {
    let (x, y, z) = (-2, 0x0102_0304, 7);
    let (pressed, keycode) = (true, 0x110);
    let place = [0xFE, 0xFF, 0xFF, 0xFF, 4, 3, 2, 1, 7];
    let mut events = vec![
        (RingEvent::Motion { x, y, z }, [&[1, 0, 0, 0], &place[..]].concat()),
        (RingEvent::Key { pressed, keycode }, vec![3, 1, 0, 0, 0x10, 1]),
        (RingEvent::Pos { x, y, wheel: z }, [&[4, 0, 0, 0], &place[..]].concat()),
    ];
    events.extend(touches());
    events
}

fn touches() -> Vec<(RingEvent, Vec<u8>)> {
    let (contact, x, y) = (9, -2, 0x0102_0304);
    let (major, minor, orientation) = (0xFFFF_FFFE, 5, -2);
    let place = [0xFE, 0xFF, 0xFF, 0xFF, 4, 3, 2, 1];
    let bytes = |subtype, rest: &[u8]| [&[5, subtype, 9, 0, 0, 0, 0, 0], rest].concat();
    let shape = TouchShape { contact, major, minor };
    vec![
        (TouchDown { contact, x, y }, bytes(0, &place)),
        (TouchUp { contact }, bytes(1, &[])),
        (TouchMotion { contact, x, y }, bytes(2, &place)),
        (TouchSyn { contact }, bytes(3, &[])),
        (shape, bytes(4, &[0xFE, 0xFF, 0xFF, 0xFF, 5])),
        (TouchOrient { contact, orientation }, bytes(5, &[0xFE, 0xFF])),
    ]
}

#[test]
fn each_event_has_its_bytes() -> Answer<()> {
    for (event, mut bytes) in events() {
        bytes.resize(40, 0);
        assert_eq!(event.encode()?[..], bytes, "{event:?}");
        assert_eq!(RingEvent::decode(&bytes, CONTACT_LIMIT), Ok(event));
        bytes[39] = 1;
        assert_eq!(
            RingEvent::decode(&bytes, CONTACT_LIMIT),
            Err(Refusal::Malformed),
            "{event:?}"
        );
    }
    Ok(())
}

#[test]
fn unknown_events_are_decoded_only() -> Answer<()> {
    assert_eq!(RingEvent::Unknown.encode(), Err(Refusal::Malformed));
    assert_eq!(RingEvent::decode(&[2; 40], 1), Ok(RingEvent::Unknown));
    assert_eq!(RingEvent::decode(&[2; 39], 1), Err(Refusal::Invalid));
    let mut page = [0; RING_PAGE_LENGTH];
    assert_eq!(
        RingProducer::new(1)?.put_bytes(&mut page, &[2; 40]),
        Err(Refusal::Malformed)
    );
    assert_eq!(page, [0; RING_PAGE_LENGTH]);
    Ok(())
}

#[test]
fn contacts_are_below_the_limit() -> Answer<()> {
    assert_eq!(RingProducer::new(0), Err(Refusal::Invalid));
    assert_eq!(RingConsumer::new(33), Err(Refusal::Invalid));
    let mut page = [0; RING_PAGE_LENGTH];
    let mut producer = RingProducer::new(CONTACT_LIMIT)?;
    assert_eq!(
        producer.put(&mut page, RingEvent::TouchUp { contact: 10 }),
        Err(Refusal::Malformed)
    );
    producer.put(&mut page, RingEvent::TouchUp { contact: 9 })
}

#[test]
fn settings_give_the_contact_limit() -> Answer<()> {
    let mut settings = Settings::new();
    assert_eq!(settings.close()?.contact_limit(), 1);
    for node in ["multi-touch-num-contacts", "multi-touch-width", "multi-touch-height"] {
        settings.node(node, "10")?;
    }
    assert_eq!(settings.close()?.contact_limit(), 1, "contacts, but no multi-touch");
    settings.node("feature-multi-touch", "1")?;
    settings.node("request-multi-touch", "1")?;
    assert_eq!(settings.close()?.contact_limit(), 10);
    Ok(())
}

#[test]
fn what_is_taken_is_what_was_put() -> Answer<()> {
    let mut page = [0; RING_PAGE_LENGTH];
    let mut producer = RingProducer::new(CONTACT_LIMIT)?;
    let mut consumer = RingConsumer::new(CONTACT_LIMIT)?;
    for keycode in 0..500 {
        let (event, _) = events()[keycode as usize % 9];
        let key = RingEvent::Key { pressed: true, keycode };
        producer.put(&mut page, event)?;
        producer.put(&mut page, key)?;
        assert_eq!(consumer.take(&mut page), Ok(event));
        assert_eq!(consumer.take(&mut page), Ok(key));
    }
    assert_eq!((producer.index(), consumer.index()), (1000, 1000));
    assert_eq!(consumer.take(&mut page), Err(Refusal::NothingToRead));
    Ok(())
}

#[test]
fn a_full_ring_and_impossible_indices_are_refused() -> Answer<()> {
    let mut page = [0; RING_PAGE_LENGTH];
    let mut producer = RingProducer::new(1)?;
    let event = RingEvent::Motion { x: 1, y: 2, z: 3 };
    for _ in 0..51 {
        producer.put(&mut page, event)?;
    }
    assert_eq!(producer.put(&mut page, event), Err(Refusal::NoRoom));
    page[0] = 52;
    assert_eq!(producer.put(&mut page, event), Err(Refusal::BadIndex));
    page[4] = 52;
    assert_eq!(RingConsumer::new(1)?.take(&mut page), Err(Refusal::BadIndex));
    Ok(())
}
