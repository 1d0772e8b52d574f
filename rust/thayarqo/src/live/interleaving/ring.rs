//! Both ends of a keyboard ring that interrupt each other.
use super::{run, shared_words, Interrupted};
use crate::live::{LiveConsumer, LiveProducer};
use crate::{Answer, Refusal, RingConsumer, RingEvent, RingProducer, RING_PAGE_LENGTH};

struct Writer {
    producer: LiveProducer<'static>,
    put: i32,
    refused: u32,
}

impl Writer {
    fn put(&mut self) {
        let number = self.put;
        match self.producer.put(RingEvent::Motion {
            x: number,
            y: number,
            z: number,
        }) {
            Ok(()) => self.put += 1,
            Err(refusal) => {
                assert_eq!(refusal, Refusal::NoRoom);
                self.refused += 1;
            }
        }
    }
}

struct Reader {
    consumer: LiveConsumer<'static>,
    taken: i32,
}

impl Reader {
    fn take(&mut self) {
        let number = self.taken;
        match self.consumer.take() {
            Ok(event) => {
                let expected = RingEvent::Motion {
                    x: number,
                    y: number,
                    z: number,
                };
                assert_eq!(event, expected);
                self.taken += 1;
            }
            Err(refusal) => assert_eq!(refusal, Refusal::NothingToRead),
        }
    }
}

fn deliver(which: Interrupted) -> Answer<()> {
    let page = shared_words(RING_PAGE_LENGTH);
    let writer = Writer {
        producer: LiveProducer::new(RingProducer::new(1)?, page)?,
        put: 0,
        refused: 0,
    };
    let reader = Reader {
        consumer: LiveConsumer::new(RingConsumer::new(1)?, page)?,
        taken: 0,
    };
    let (writer, mut reader) = run(writer, Writer::put, reader, Reader::take, which);
    (0..51).for_each(|_| reader.take());
    assert!(writer.put > 1000 && writer.refused > 0);
    assert_eq!(reader.taken, writer.put);
    Ok(())
}

#[test]
fn events_are_delivered_by_an_interrupted_host() -> Answer<()> {
    deliver(Interrupted::Writer)
}

#[test]
fn events_are_delivered_to_an_interrupted_guest() -> Answer<()> {
    deliver(Interrupted::Reader)
}
