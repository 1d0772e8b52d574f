//! The calls over slices. The library's proofs hold for any numbers, any lengths and any states, so what makes these calls sound is
//! that each buffer is a slice, that no two overlap, and that a bool is a bool.
use crate::calls::*;
use crate::{Closed, Copied, Device, Driver, Geometry, RingEvent, RingFound, Settings, Taken, Told, Value};

pub fn fresh_device() -> Device {
    unsafe { thayarqo_fresh_device() }
}

pub fn read(device: &Device, geometry: Geometry, area: &[u8], page: &[u8], offset: u64, width: u32) -> Value {
    unsafe {
        thayarqo_read(
            device,
            geometry,
            area.as_ptr(),
            area.len(),
            page.as_ptr(),
            page.len(),
            offset,
            width,
        )
    }
}

pub fn write(
    device: &mut Device,
    geometry: Geometry,
    area: &mut [u8],
    page: &[u8],
    offset: u64,
    width: u32,
    value: u32,
) -> u8 {
    unsafe {
        thayarqo_write(
            device,
            geometry,
            area.as_mut_ptr(),
            area.len(),
            page.as_ptr(),
            page.len(),
            offset,
            width,
            value,
        )
    }
}

pub fn put_packet(
    device: &mut Device,
    geometry: Geometry,
    area: &mut [u8],
    page: &[u8],
    slot: u32,
    packet: &[u8],
) -> u8 {
    unsafe {
        thayarqo_put_packet(
            device,
            geometry,
            area.as_mut_ptr(),
            area.len(),
            page.as_ptr(),
            page.len(),
            slot,
            packet.as_ptr().cast(),
            packet.len(),
        )
    }
}

pub fn add(device: &mut Device, geometry: Geometry, area: &mut [u8], page: &mut [u8], slot: u32, entry: &[u8]) -> u8 {
    unsafe {
        thayarqo_add(
            device,
            geometry,
            area.as_mut_ptr(),
            area.len(),
            page.as_mut_ptr(),
            page.len(),
            slot,
            entry.as_ptr(),
            entry.len(),
        )
    }
}

pub fn remove(device: &mut Device, geometry: Geometry, area: &mut [u8], page: &mut [u8], slot: u32) -> u8 {
    unsafe {
        thayarqo_remove(
            device,
            geometry,
            area.as_mut_ptr(),
            area.len(),
            page.as_mut_ptr(),
            page.len(),
            slot,
        )
    }
}

pub fn fresh_driver() -> Driver {
    unsafe { thayarqo_fresh_driver() }
}

pub fn step(driver: &mut Driver, geometry: Geometry, area: &mut [u8], packet: &mut [u8]) -> Told {
    let (events, length) = (packet.as_mut_ptr(), packet.len());
    unsafe { thayarqo_step(driver, geometry, area.as_mut_ptr(), area.len(), events.cast(), length) }
}

pub fn copy_out(geometry: Geometry, area: &mut [u8], limit: u32, out: &mut [u8]) -> Copied {
    unsafe {
        thayarqo_copy_out(
            geometry,
            area.as_mut_ptr(),
            area.len(),
            limit,
            out.as_mut_ptr(),
            out.len(),
        )
    }
}

pub fn lookup(geometry: Geometry, page: &[u8], slot: u32, out: &mut [u8]) -> u8 {
    unsafe { thayarqo_lookup(geometry, page.as_ptr(), page.len(), slot, out.as_mut_ptr(), out.len()) }
}

pub fn revision1_step(geometry: Geometry, area: &mut [u8]) -> Taken {
    unsafe { thayarqo_revision1_step(geometry, area.as_mut_ptr(), area.len()) }
}

pub fn ring_encode(out: &mut [u8], event: RingEvent) -> u8 {
    unsafe { thayarqo_ring_encode(out.as_mut_ptr(), out.len(), event) }
}

pub fn ring_decode(bytes: &[u8], contact_limit: u32) -> RingFound {
    unsafe { thayarqo_ring_decode(bytes.as_ptr(), bytes.len(), contact_limit) }
}

pub fn ring_put(page: &mut [u8], in_prod: &mut u32, contact_limit: u32, event: &[u8]) -> u8 {
    let (from, length) = (event.as_ptr(), event.len());
    unsafe { thayarqo_ring_put(page.as_mut_ptr(), page.len(), in_prod, contact_limit, from, length) }
}

pub fn ring_take(page: &mut [u8], in_cons: &mut u32, contact_limit: u32) -> RingFound {
    unsafe { thayarqo_ring_take(page.as_mut_ptr(), page.len(), in_cons, contact_limit) }
}

pub fn fresh_settings() -> Settings {
    unsafe { thayarqo_fresh_settings() }
}

pub fn node(settings: &mut Settings, name: &[u8], value: &[u8]) -> u8 {
    unsafe { thayarqo_node(settings, name.as_ptr(), name.len(), value.as_ptr(), value.len()) }
}

pub fn close(settings: Settings) -> Closed {
    unsafe { thayarqo_close(settings) }
}
