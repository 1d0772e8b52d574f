//! The structs have the sizes that the header asserts.
use crate::*;
use core::mem::size_of;

const _: () = {
    assert!(size_of::<Geometry>() == 12);
    assert!(size_of::<Device>() == 32);
    assert!(size_of::<Position>() == 4);
    assert!(size_of::<Event>() == 8);
    assert!(size_of::<Value>() == 8);
    assert!(size_of::<Driver>() == 12);
    assert!(size_of::<Told>() == 12);
    assert!(size_of::<Copied>() == 8);
    assert!(size_of::<Taken>() == 12);
    assert!(size_of::<RingEvent>() == 32);
    assert!(size_of::<RingFound>() == 36);
    assert!(size_of::<Parameter>() == 8);
    assert!(size_of::<Settings>() == 48);
    assert!(size_of::<Closed>() == 28);
};
