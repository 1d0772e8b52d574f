//! The functions, in the header's order.
use crate::{Closed, Copied, Device, Driver, Geometry, RingEvent, RingFound, Settings, Taken, Told, Value};
use core::ffi::c_void;

extern "C" {
    pub fn thayarqo_fresh_device() -> Device;

    pub fn thayarqo_read(
        device: *const Device,
        geometry: Geometry,
        area: *const u8,
        area_length: usize,
        page: *const u8,
        page_length: usize,
        offset: u64,
        width: u32,
    ) -> Value;

    pub fn thayarqo_write(
        device: *mut Device,
        geometry: Geometry,
        area: *mut u8,
        area_length: usize,
        page: *const u8,
        page_length: usize,
        offset: u64,
        width: u32,
        value: u32,
    ) -> u8;

    pub fn thayarqo_put_packet(
        device: *mut Device,
        geometry: Geometry,
        area: *mut u8,
        area_length: usize,
        page: *const u8,
        page_length: usize,
        slot: u32,
        packet: *const c_void,
        packet_length: usize,
    ) -> u8;

    pub fn thayarqo_add(
        device: *mut Device,
        geometry: Geometry,
        area: *mut u8,
        area_length: usize,
        page: *mut u8,
        page_length: usize,
        slot: u32,
        entry: *const u8,
        entry_length: usize,
    ) -> u8;

    pub fn thayarqo_remove(
        device: *mut Device,
        geometry: Geometry,
        area: *mut u8,
        area_length: usize,
        page: *mut u8,
        page_length: usize,
        slot: u32,
    ) -> u8;

    pub fn thayarqo_fresh_driver() -> Driver;

    pub fn thayarqo_step(
        driver: *mut Driver,
        geometry: Geometry,
        area: *mut u8,
        area_length: usize,
        packet: *mut c_void,
        packet_length: usize,
    ) -> Told;

    pub fn thayarqo_copy_out(
        geometry: Geometry,
        area: *mut u8,
        area_length: usize,
        limit: u32,
        out: *mut u8,
        out_length: usize,
    ) -> Copied;

    pub fn thayarqo_lookup(
        geometry: Geometry,
        page: *const u8,
        page_length: usize,
        slot: u32,
        out: *mut u8,
        out_length: usize,
    ) -> u8;

    pub fn thayarqo_revision1_step(geometry: Geometry, area: *mut u8, area_length: usize) -> Taken;

    pub fn thayarqo_ring_encode(out: *mut u8, out_length: usize, event: RingEvent) -> u8;

    pub fn thayarqo_ring_decode(bytes: *const u8, bytes_length: usize, contact_limit: u32) -> RingFound;

    pub fn thayarqo_ring_put(
        page: *mut u8,
        page_length: usize,
        in_prod: *mut u32,
        contact_limit: u32,
        event: *const u8,
        event_length: usize,
    ) -> u8;

    pub fn thayarqo_ring_take(page: *mut u8, page_length: usize, in_cons: *mut u32, contact_limit: u32) -> RingFound;

    pub fn thayarqo_fresh_settings() -> Settings;

    pub fn thayarqo_node(
        settings: *mut Settings,
        name: *const u8,
        name_length: usize,
        value: *const u8,
        value_length: usize,
    ) -> u8;

    pub fn thayarqo_close(settings: Settings) -> Closed;
}
