//! A device and its guest's drivers, and what the commands do with them.
use crate::command::{Command, Memory};
use crate::guest;
use crate::outcome::{counted, refused, Outcome};
use crate::words::Parsed;
use thayarqo::register::{CLIENT_REV, CONTROL, CONTROL_INTERRUPTS, CONTROL_ON};
use thayarqo::{
    Answer, Device, Driver, Event, Geometry, Refusal, Revision, Revision1Driver, Revision1Record, EVENT_LENGTH,
};

/// Bytes of an access to the BAR that isn't refused.
const WORD: u32 = 4;

pub struct World {
    device: Device,
    driver: Driver,
    revision1_driver: Revision1Driver,
    /// Which of the drivers the guest has, since the last switch-on.
    revision: Revision,
}

impl World {
    pub fn new(geometry: Geometry) -> World {
        World {
            device: Device::new(geometry),
            driver: Driver::new(geometry),
            revision1_driver: Revision1Driver::new(geometry),
            revision: Revision::Two,
        }
    }

    /// Runs a command, or says what is wrong with it.
    pub fn run(&mut self, command: &Command) -> Parsed<Outcome> {
        Ok(match command {
            Command::Geometry {
                pages,
                record_size,
                entry_size,
            } => self.begin(Geometry::new(*pages, *record_size, *entry_size)),
            Command::Add { slot, entry } => Outcome::of(self.device.add(*slot, entry)),
            Command::Remove { slot } => Outcome::of(self.device.remove(*slot)),
            Command::On { revision, interrupts } => Outcome::of(self.switch_on(*revision, *interrupts)),
            Command::Off => Outcome::of(self.write(CONTROL, 0, WORD)),
            Command::Packet { slot, events } => Outcome::of(self.send(*slot, events)),
            Command::Step => self.step(),
            Command::Drain => self.drain(),
            Command::Copy { limit } => self.copy_out(*limit),
            Command::Records => self.records(),
            Command::Lookup { slot } => self.look_up(*slot),
            Command::Read { offset, width } => self.read(*offset, *width),
            Command::Write { offset, value, width } => Outcome::of(self.write(*offset, *value, *width)),
            Command::Poke { memory, offset, bytes } => self.poke(*memory, *offset, bytes)?,
            Command::Repeat { count, command } => self.repeat(*count, command)?,
        })
    }

    fn begin(&mut self, geometry: Answer<Geometry>) -> Outcome {
        if let Ok(geometry) = geometry {
            *self = World::new(geometry);
        }
        Outcome::with_detail(geometry, |geometry| {
            let records = counted(geometry.ring_length() as usize, "record");
            let slots = counted(geometry.slots() as usize, "slot");
            format!("a ring of {records}, {slots}")
        })
    }

    /// A guest of revision 1 doesn't know CLIENT_REV. Only where another guest has written there, 1 has to be written first.
    fn switch_on(&mut self, revision: Revision, interrupts: bool) -> Answer<()> {
        match revision {
            Revision::One if self.device.revision() == Some(Revision::One) => {}
            Revision::One => self.write(CLIENT_REV, 1, WORD)?,
            Revision::Two => self.write(CLIENT_REV, 2, WORD)?,
        }
        let wanted = if interrupts { CONTROL_INTERRUPTS } else { 0 };
        self.write(CONTROL, CONTROL_ON | wanted, WORD)
    }

    /// A guest that switches the device on begins to read with a fresh driver, that of the revision which the device serves.
    fn write(&mut self, offset: u64, value: u32, width: u32) -> Answer<()> {
        let was_on = self.device.is_on();
        self.device.write(offset, width, value)?;
        if self.device.is_on() && !was_on {
            let geometry = self.device.geometry();
            self.driver = Driver::new(geometry);
            self.revision1_driver = Revision1Driver::new(geometry);
            self.revision = self.device.revision().expect("a device that is on serves one");
        }
        Ok(())
    }

    fn read(&self, offset: u64, width: u32) -> Outcome {
        Outcome::with_detail(self.device.read(offset, width), |value| {
            format!("{value} (0x{value:X})")
        })
    }

    fn send(&mut self, slot: u32, events: &[Event]) -> Answer<()> {
        let bytes: Vec<u8> = events.iter().flat_map(|event| event.bytes()).collect();
        self.device.put_packet_bytes(slot, &bytes)
    }

    /// The guest reads a record. Hands back the line of what it is told by it, if anything.
    fn read_record(&mut self) -> Answer<Option<String>> {
        let area = self.device.area_mut();
        match self.revision {
            Revision::One => Ok(self.revision1_driver.receive(area)?.as_ref().map(guest::group)),
            Revision::Two => Ok(guest::told(&self.driver.step(area)?)),
        }
    }

    fn step(&mut self) -> Outcome {
        let told = self.read_record();
        let mut outcome = Outcome::of(told.as_ref().map(|_| ()).map_err(|refusal| *refusal));
        if let Ok(Some(line)) = told {
            outcome.show(line);
        }
        outcome
    }

    /// A malformed record is consumed, so the driver goes on after it.
    fn drain(&mut self) -> Outcome {
        let mut lines = Vec::new();
        let mut records = 0;
        let answer = loop {
            match self.read_record() {
                Ok(told) => lines.extend(told),
                Err(Refusal::Malformed) => lines.push(guest::line(&refused(Refusal::Malformed))),
                Err(Refusal::NothingToRead) => break Ok(records),
                Err(refusal) => break Err(refusal),
            }
            records += 1;
        };
        let mut outcome = Outcome::with_detail(answer, |records| format!("{} read", counted(*records, "record")));
        lines.into_iter().for_each(|line| outcome.show(line));
        outcome
    }

    fn copy_out(&mut self, limit: u32) -> Outcome {
        let first = self.device.read_pointer();
        copy_rows(&self.driver, self.revision, self.device.area_mut(), first, limit)
    }

    /// A copy-out from a copy of the area, so that nothing is consumed.
    fn records(&self) -> Outcome {
        let mut area = self.device.area().to_vec();
        copy_rows(
            &self.driver,
            self.revision,
            &mut area,
            self.device.read_pointer(),
            u32::MAX,
        )
    }

    fn look_up(&self, slot: u32) -> Outcome {
        let found = self.driver.lookup(self.device.page(), slot);
        let mut outcome = Outcome::of(found.map(|_| ()));
        if let Ok(entry) = found {
            outcome.show(guest::line(&guest::entry(&entry)));
        }
        outcome
    }

    fn poke(&mut self, memory: Memory, offset: usize, bytes: &[u8]) -> Parsed<Outcome> {
        let target = match memory {
            Memory::Area => self.device.area_mut(),
            Memory::Page => self.device.page_mut(),
        };
        let length = target.len();
        let place = offset
            .checked_add(bytes.len())
            .and_then(|end| target.get_mut(offset..end));
        let place = place.ok_or_else(|| format!("this memory ends at {length}"))?;
        place.copy_from_slice(bytes);
        Ok(Outcome::of(Ok(())))
    }

    fn repeat(&mut self, count: u32, command: &Command) -> Parsed<Outcome> {
        let mut outcome = Outcome::none();
        for _ in 0..count {
            outcome.join(self.run(command)?);
        }
        Ok(outcome)
    }
}

/// Copies records out of an area and shows a row for each, as a guest of that revision reads it.
fn copy_rows(driver: &Driver, revision: Revision, area: &mut [u8], first: u32, limit: u32) -> Outcome {
    let ring_length = driver.geometry().ring_length();
    let mut out = vec![0; EVENT_LENGTH * limit.min(ring_length) as usize];
    let copied = driver.copy_out(area, limit, &mut out);
    let mut outcome = Outcome::with_detail(copied, |count| counted(*count, "record"));
    let (records, _) = out.as_chunks();
    for (record, index) in records[..copied.unwrap_or(0)].iter().zip(first..) {
        let index = index % ring_length;
        outcome.show(match revision {
            Revision::One => guest::revision1_row(index, Revision1Record::of_bytes(*record)),
            Revision::Two => guest::row(index, Event::of_bytes(*record)),
        });
    }
    outcome
}
