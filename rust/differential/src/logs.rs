//! What was sent and what was received, from arguments and answers alone.

use crate::call::{Answer, Call};
use crate::sender::{Entry, Sender};
use std::collections::VecDeque;
use thayarqo_model::access::ACCELERATION;
use thayarqo_model::answer::{DONE, NOTHING_TO_READ, NO_ROOM};
use thayarqo_model::device::Device;
use thayarqo_model::packet::events_of;
use thayarqo_model::records::Event;
use thayarqo_model::revision1::FENCE;
use thayarqo_model::revision1_reader::TakenRecord;
use thayarqo_sys::{TOLD_GAP, TOLD_PACKET};

/// The sent log without its front part that was received, and what was received as numbers.
pub struct Logs {
    sender: Sender,
    waiting: VecDeque<Entry>,
    /// What was read in revision 1 since the last FENCE.
    begun: Vec<Event>,
    pub packets: u64,
    pub gaps: u64,
    pub groups: u64,
    pub dry: u64,
}

impl Logs {
    /// From a switch-on that left this device.
    pub fn starting(device: &Device) -> Logs {
        Logs {
            sender: Sender::starting(device),
            waiting: VecDeque::new(),
            begun: Vec::new(),
            packets: 0,
            gaps: 0,
            groups: 0,
            dry: 0,
        }
    }

    /// `held` is the buffer of the driver's packet after the call.
    pub fn note(&mut self, call: &Call, answer: &Answer, held: &[u8]) -> Result<(), String> {
        match (call, answer.number()) {
            (Call::PutPacket { slot, packet }, DONE) => return self.sender.send(*slot, packet, &mut self.waiting),
            (Call::PutPacket { .. }, NO_ROOM) => self.sender.lose(),
            (Call::Write { offset, value, .. }, DONE) if *offset == ACCELERATION => self.sender.accelerate(*value),
            (Call::Step | Call::Revision1Step, NOTHING_TO_READ) => return self.hear_nothing(),
            (Call::Step | Call::Revision1Step, DONE) => return self.hear(answer, held),
            _ => {}
        }
        Ok(())
    }

    fn hear_nothing(&mut self) -> Result<(), String> {
        self.dry += 1;
        match self.waiting.front() {
            None => Ok(()),
            Some(entry) => Err(format!("nothing to read, and {entry:?} wasn't received")),
        }
    }

    fn hear(&mut self, answer: &Answer, held: &[u8]) -> Result<(), String> {
        match answer {
            Answer::Told(told) if told.what == TOLD_GAP => self.receive(Entry::Gap),
            Answer::Told(told) if told.what == TOLD_PACKET => {
                let events = held.get(..8 * told.count as usize);
                self.receive(Entry::Packet {
                    slot: told.slot,
                    events: events_of(events.unwrap_or_default()),
                })
            }
            Answer::Record(record) => self.hear_record(record),
            _ => Ok(()),
        }
    }

    fn hear_record(&mut self, record: &TakenRecord) -> Result<(), String> {
        self.begun.push(Event::new(record.flags, record.revision, record.data));
        if record.flags & FENCE == 0 {
            return Ok(());
        }
        let group = std::mem::take(&mut self.begun);
        self.receive(Entry::Group(group))
    }

    fn receive(&mut self, entry: Entry) -> Result<(), String> {
        let sent = self.waiting.pop_front();
        if sent.as_ref() != Some(&entry) {
            return Err(format!("received {entry:?}, and sent {sent:?}"));
        }
        match entry {
            Entry::Gap => self.gaps += 1,
            Entry::Packet { .. } => self.packets += 1,
            Entry::Group(_) => self.groups += 1,
        }
        Ok(())
    }
}
