//! What a guest receives, in words.
use thayarqo::codes::{code_name, type_name, EV_ABS, EV_KEY, EV_REL};
use thayarqo::{Entry, Event, Group, Packet, Revision1Record, Source, Told};

/// None where a step tells of nothing.
pub fn told(told: &Told) -> Option<String> {
    let words = match told {
        Told::Nothing => return None,
        Told::Gap => "gap".into(),
        Told::EmptyReport => "empty report".into(),
        Told::Packet(packet) => events(packet),
        Told::Set(from) => format!("events of {} follow", source(*from)),
        Told::Conf(slot) => format!("slot {slot} taken"),
        Told::Reset(slot) => format!("slot {slot} free"),
        Told::ResetAll => "all slots free".into(),
    };
    Some(line(&words))
}

/// What a guest of revision 1 receives.
pub fn group(group: &Group) -> String {
    line(&format!("group: {group}"))
}

/// A line below a command about what reaches the guest.
pub fn line(words: &str) -> String {
    format!("guest: {words}")
}

fn source(source: Source) -> String {
    match source {
        Source::Slot(slot) => format!("slot {slot}"),
        Source::None => "no slot".into(),
        Source::Unknown => "an unknown source".into(),
    }
}

fn events(packet: &Packet) -> String {
    let events: Vec<String> = packet.events().iter().map(Event::to_string).collect();
    format!("packet of {}: {}", source(packet.source()), events.join(", "))
}

fn name_or_number(name: Option<&str>, number: u16) -> String {
    name.map_or_else(|| number.to_string(), str::to_string)
}

/// The row of a record, by its index in the ring.
pub fn row(index: u32, record: Event) -> String {
    let Event { kind, code, .. } = record;
    let kind_name = name_or_number(type_name(kind), kind);
    let code_name = name_or_number(code_name(kind, code), code);
    format!("{index:>4}  {kind_name:<6}  {code_name:<18}  {}", record.signed())
}

/// The row of a record of revision 1.
pub fn revision1_row(index: u32, record: Revision1Record) -> String {
    format!("{index:>4}  {record}")
}

/// An entry's name and offer.
pub fn entry(entry: &Entry) -> String {
    let name = entry.name().escape_ascii();
    let codes = [EV_ABS, EV_KEY].into_iter().flat_map(|kind| offered(entry, kind));
    let movements = entry.offers(EV_REL, 0).then(|| "REL".to_string());
    let offer: Vec<String> = movements.into_iter().chain(codes).collect();
    if offer.is_empty() {
        return format!("entry {name} offers nothing");
    }
    format!("entry {name} offers {}", offer.join(", "))
}

/// The codes of a type on offer, as a script has them.
fn offered(entry: &Entry, kind: u16) -> impl Iterator<Item = String> + '_ {
    let codes = (0..=u16::MAX).filter(move |code| entry.offers(kind, *code));
    codes.map(move |code| code_name(kind, code).map_or_else(|| format!("{kind}:{code}"), str::to_string))
}

#[cfg(test)]
mod tests {
    use super::*;
    use thayarqo::codes::{ABS_X, BTN_TOUCH};
    use thayarqo::flags::VWHEEL;
    use thayarqo::Answer;

    #[test]
    fn packets_are_told_by_their_source() {
        let told = |slot| {
            let packet = Packet::new(slot, &[Event::abs(ABS_X, 345), Event::key(BTN_TOUCH, true)]);
            super::told(&Told::Packet(packet.expect("two events")))
        };
        assert_eq!(told(4), Some("guest: packet of slot 4: ABS_X 345, BTN_TOUCH 1".into()));
        assert_eq!(
            told(u32::MAX),
            Some("guest: packet of an unknown source: ABS_X 345, BTN_TOUCH 1".into())
        );
    }

    #[test]
    fn records_without_a_name_have_numbers() {
        let record = Event {
            kind: 9,
            code: 65535,
            value: u32::MAX,
        };
        assert_eq!(row(7, record), "   7  9       65535               -1");
        assert_eq!(row(4095, Event::abs(ABS_X, 3)), "4095  EV_ABS  ABS_X               3");
    }

    #[test]
    fn records_of_revision_1_have_flags() {
        let record = |flags, data| Revision1Record {
            flags,
            revision: 1,
            data,
        };
        assert_eq!(revision1_row(7, record(VWHEEL, u32::MAX)), "   7  VWHEEL -1");
        assert_eq!(revision1_row(510, record(0x801, 2)), " 510  flags 0x801 data 0x2");
    }

    #[test]
    fn an_entry_tells_its_offer() -> Answer<()> {
        let pad = Entry::new("pad").offer_rel().offer_abs(ABS_X)?.offer_key(0x15F)?;
        assert_eq!(entry(&pad), "entry pad offers REL, ABS_X, 1:351");
        assert_eq!(entry(&Entry::new("\u{7f}")), "entry \\x7f offers nothing");
        Ok(())
    }
}
