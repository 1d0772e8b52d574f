//! What a driver of revision 1 makes of any records.
use thayarqo::codes::BTN_LEFT;
use thayarqo::flags::{flag_name, FENCE, HWHEEL, LEFT_BUTTON_DOWN, RELATIVE};
use thayarqo::{
    Answer, Geometry, Group, Refusal, Revision1Driver, Revision1Event, Revision1Record, EVENT_LENGTH, GROUP_RECORDS,
};

/// An event area with these records unread.
fn area_of(records: &[(u16, u32)]) -> Vec<u8> {
    let mut area = vec![0; 4096];
    area[4..8].copy_from_slice(&(records.len() as u32).to_le_bytes());
    for (place, (flags, data)) in area[8..].chunks_exact_mut(8).zip(records) {
        place[..2].copy_from_slice(&flags.to_le_bytes());
        place[2..4].copy_from_slice(&1_u16.to_le_bytes());
        place[4..].copy_from_slice(&data.to_le_bytes());
    }
    area
}

fn driver() -> Answer<Revision1Driver> {
    Ok(Revision1Driver::new(Geometry::new(1, 8, 68)?))
}

/// What a driver makes of records: the groups that it receives, and where it refuses one.
fn groups_of(records: &[(u16, u32)]) -> Answer<Vec<Answer<Group>>> {
    let (mut driver, mut area) = (driver()?, area_of(records));
    let answers = records.iter().map(|_| driver.receive(&mut area));
    Ok(answers.filter_map(Answer::transpose).collect())
}

#[test]
fn a_group_may_have_as_many_records_as_a_device_puts() -> Answer<()> {
    let press = (LEFT_BUTTON_DOWN, 0);
    for (presses, is_group) in [
        (0, true),
        (GROUP_RECORDS - 1, true),
        (GROUP_RECORDS, false),
        (400, false),
    ] {
        let mut records = vec![press; presses];
        records.extend([(FENCE, 0), press, (FENCE, 0)]);
        let groups = groups_of(&records)?;
        let lengths: Vec<_> = groups
            .iter()
            .map(|group| group.map(|group| group.records().len()))
            .collect();
        let first = if is_group {
            Ok(presses + 1)
        } else {
            Err(Refusal::Malformed)
        };
        assert_eq!(lengths, [first, Ok(2)]);
    }
    Ok(())
}

/// Records that no device puts: a FENCE is one by its flag, and other flags are handed on as they are.
#[test]
fn odd_records_end_a_group_or_are_handed_on() -> Answer<()> {
    let groups = groups_of(&[(RELATIVE | FENCE, 5), (0x800, 6), (0, 7), (HWHEEL, 8), (0xFFFF, 9)])?;
    let [Ok(first), Ok(second)] = groups[..] else {
        panic!("{groups:?}");
    };
    assert_eq!((first.records().len(), first.events().count()), (1, 0));
    let other = |flags, data| {
        Revision1Event::Other(Revision1Record {
            flags,
            revision: 1,
            data,
        })
    };
    let expected = [other(0x800, 6), other(0, 7), Revision1Event::HWheel(8)];
    assert_eq!(second.events().collect::<Vec<_>>(), expected);
    assert_eq!(
        second.to_string(),
        "flags 0x800 data 0x6, flags 0x0 data 0x7, HWHEEL 8, flags 0xffff data 0x9"
    );
    Ok(())
}

#[test]
fn a_step_hands_over_a_record_past_the_groups() -> Answer<()> {
    let (mut driver, mut area) = (driver()?, area_of(&[(RELATIVE, 1), (LEFT_BUTTON_DOWN, 0), (FENCE, 0)]));
    let bytes: [u8; EVENT_LENGTH] = area[16..24].try_into().expect("eight bytes");
    assert_eq!(driver.receive(&mut area), Ok(None));
    let pressed = driver.step(&mut area)?;
    assert_eq!(pressed, Revision1Record::of_bytes(bytes));
    let button = Revision1Event::Button {
        code: BTN_LEFT,
        pressed: true,
    };
    assert_eq!((pressed.event(), pressed.is_fence()), (button, false));
    let group = driver.receive(&mut area)?.expect("the FENCE");
    assert_eq!(group.to_string(), "RELATIVE 1 0, FENCE");
    assert_eq!(driver.step(&mut area), Err(Refusal::NothingToRead));
    assert_eq!(driver.step(&mut area[1..]), Err(Refusal::Invalid));
    Ok(())
}

#[test]
fn a_flag_has_a_name_where_it_stands_alone() {
    let names: Vec<_> = (0..16).filter_map(|bit| flag_name(1 << bit)).collect();
    assert_eq!((names.len(), names[0], names[10]), (11, "ABSOLUTE", "VWHEEL"));
    assert_eq!((flag_name(0), flag_name(RELATIVE | FENCE)), (None, None));
}
