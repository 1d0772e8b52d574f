//! A packet: refused, or put whole.

use crate::answer::{BAD_INDEX, BAD_SLOT, DEVICE_OFF, DONE, INVALID, MALFORMED, NOT_OFFERED, NO_ROOM};
use crate::bytes::word;
use crate::device::Device;
use crate::geometry::Geometry;
use crate::records::{
    put_records, Event, DEV_SET, EV_DEV, EV_SYN, KNOWN_RECORD, READ_POINTER, SYN_DROPPED, SYN_REPORT,
};
use crate::revision1::Group;
use crate::{Fault, Model};

/// The most events of a packet.
pub const MOST_EVENTS: usize = 32;

/// Bytes of as many events.
pub const PACKET: usize = MOST_EVENTS * KNOWN_RECORD;

/// Ends a packet.
const REPORT: Event = Event::new(EV_SYN, SYN_REPORT, 0);

/// Tells of what was lost.
const GAP: [Event; 2] = [Event::new(EV_SYN, SYN_DROPPED, 0), REPORT];

/// Events one after the other, each as in a record.
pub fn bytes_of(events: &[Event]) -> Vec<u8> {
    let mut bytes = vec![0; events.len() * KNOWN_RECORD];
    for (index, event) in events.iter().enumerate() {
        event.put(&mut bytes, index * KNOWN_RECORD);
    }
    bytes
}

/// The events of bytes. What is left behind the last whole event is no event.
pub fn events_of(bytes: &[u8]) -> Vec<Event> {
    bytes
        .chunks_exact(KNOWN_RECORD)
        .map(|event| Event::read(event, 0))
        .collect()
}

impl Model {
    /// The packet is a slot's events as bytes. Refusals in order: 1, 5, 6, 9, 8, 10, 7. The last two set the lost mark.
    pub fn put_packet(
        self,
        device: &mut Device,
        geometry: Geometry,
        area: &mut [u8],
        page: &[u8],
        slot: u32,
        packet: &[u8],
    ) -> u8 {
        if self.is_invalid(device, geometry, area, page) || !packet.len().is_multiple_of(KNOWN_RECORD) {
            return INVALID;
        }
        if !device.on {
            return DEVICE_OFF;
        }
        let events = events_of(packet);
        let most = MOST_EVENTS + usize::from(self.has(Fault::PacketOf33Events));
        let malformed = events.is_empty() || events.len() > most;
        if malformed && self.has(Fault::MalformedBeforeSlot) {
            return MALFORMED;
        }
        if !device.has_taken(slot) {
            return BAD_SLOT;
        }
        if malformed {
            return MALFORMED;
        }
        let entry = &page[geometry.entry_at(slot)..];
        if !events.iter().all(|&event| self.is_offered(entry, event)) {
            return NOT_OFFERED;
        }
        self.put_offered(device, geometry, area, slot, &events)
    }

    fn put_offered(self, device: &mut Device, geometry: Geometry, area: &mut [u8], slot: u32, events: &[Event]) -> u8 {
        let (records, after) = match self.sent(device, slot, events) {
            Ok(sent) => sent,
            Err(answer) => return answer,
        };
        let refusal = self.room_refusal(device, geometry, area, records.len());
        if refusal == NO_ROOM && self.has(Fault::PacketEventByEvent) {
            let room = self.room(device, geometry, word(area, READ_POINTER)) as usize;
            put_records(device, geometry, area, &records[..room]);
        }
        if refusal == BAD_INDEX || refusal == NO_ROOM {
            device.lost |= refusal == NO_ROOM || !self.has(Fault::LostMarkNotSetAt10);
            return refusal;
        }
        *device = after;
        put_records(device, geometry, area, &records);
        device.isr |= device.interrupts || self.has(Fault::IsrWithoutInterrupts);
        DONE
    }

    /// A packet's records, and the state that remembers what they tell. 8 where revision 1 has no form for the packet.
    fn sent(self, device: &Device, slot: u32, events: &[Event]) -> Result<(Vec<Event>, Device), u8> {
        if device.is_revision1() {
            return self.sent_to_revision1(device, slot, events);
        }
        let after = Device {
            lost: device.lost && self.has(Fault::GapShownTwice),
            current_slot: slot,
            ..*device
        };
        Ok((self.records_of(device, slot, events), after))
    }

    /// Neither the slot nor what was lost is told.
    fn sent_to_revision1(self, device: &Device, slot: u32, events: &[Event]) -> Result<(Vec<Event>, Device), u8> {
        let Group { mut records, position } = self.group(device.acceleration, device.position, events)?;
        if device.lost && self.has(Fault::GapInRevision1) {
            records.splice(..0, GAP);
        }
        let mut after = Device { position, ..*device };
        after.lost &= !self.has(Fault::LostMarkClearedInRevision1);
        if self.has(Fault::CurrentSlotInRevision1) {
            after.current_slot = slot;
        }
        Ok((records, after))
    }

    /// All records of a packet in revision 2: what was lost, the slot, the events, the report.
    fn records_of(self, device: &Device, slot: u32, events: &[Event]) -> Vec<Event> {
        let mut records = Vec::new();
        if device.lost {
            records.extend(GAP);
        }
        if device.current_slot != slot && !self.has(Fault::DevSetMissing) {
            records.push(Event::new(EV_DEV, DEV_SET, slot));
        }
        records.extend(events);
        records.push(REPORT);
        records
    }
}

#[cfg(test)]
mod tests;
