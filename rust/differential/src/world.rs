//! All that calls work on: states, pages, and buffers that are lent for one call.

use crate::guarded::Guarded;
use thayarqo_model::device::Device;
use thayarqo_model::driver::Driver;
use thayarqo_model::geometry::{Geometry, PAGE};
use thayarqo_model::packet::PACKET;
use thayarqo_model::settings::Settings;

/// The most bytes of an event area, with a page more for a length that is too long.
pub const MOST_AREA: usize = 9 * PAGE;

/// The most bytes that a call only reads.
pub const MOST_INPUT: usize = 2 * PACKET;

#[derive(Clone, PartialEq, Eq)]
pub struct World {
    pub geometry: Geometry,
    pub device: Device,
    pub driver: Driver,
    pub settings: Settings,
    pub area: Guarded,
    pub page: Guarded,
    /// The events of the packet that the driver collects.
    pub packet: Guarded,
    pub ring_page: Guarded,
    /// The private indices of the ring's two ends.
    pub in_prod: u32,
    pub in_cons: u32,
    /// What a call only reads: a packet, an entry, a node's name, a ring event.
    pub input: Guarded,
    /// A node's value.
    pub text: Guarded,
    pub out: Guarded,
}

impl World {
    /// Fresh states, and pages of the lengths that the geometry asks for.
    pub fn new(geometry: Geometry) -> World {
        let mut world = World {
            geometry,
            device: Device::fresh(),
            driver: Driver::fresh(),
            settings: Settings::fresh(),
            area: Guarded::new(MOST_AREA),
            page: Guarded::new(PAGE + 64),
            packet: Guarded::new(2 * PACKET),
            ring_page: Guarded::new(PAGE + 64),
            in_prod: 0,
            in_cons: 0,
            input: Guarded::new(MOST_INPUT),
            text: Guarded::new(64),
            out: Guarded::new(PAGE),
        };
        world.area.set_length(geometry.area_length());
        world.page.set_length(PAGE);
        world.packet.set_length(PACKET);
        world.ring_page.set_length(PAGE);
        world
    }

    /// What others do to it: a guest, or a careless caller.
    pub fn change(&mut self, change: &Change) {
        match change {
            Change::Area { at, bytes } => self.area.scribble(*at, bytes),
            Change::Page { at, bytes } => self.page.scribble(*at, bytes),
            Change::AreaLength(length) => self.area.set_length(*length),
            Change::PageLength(length) => self.page.set_length(*length),
            Change::Packet { at, bytes } => self.packet.scribble(*at, bytes),
            Change::PacketLength(length) => self.packet.set_length(*length),
            Change::RingPage { at, bytes } => self.ring_page.scribble(*at, bytes),
            Change::RingPageLength(length) => self.ring_page.set_length(*length),
            Change::RingIndices { in_prod, in_cons } => (self.in_prod, self.in_cons) = (*in_prod, *in_cons),
            Change::Geometry(geometry) => self.geometry = *geometry,
            Change::Device(device) => self.device = *device,
            Change::Driver(driver) => self.driver = *driver,
            Change::Settings(settings) => self.settings = *settings,
        }
    }

    /// What differs between two worlds, the library's and the model's.
    pub fn difference(&self, model: &World) -> Option<String> {
        if self == model {
            return None;
        }
        let states = [
            differ("device", &self.device, &model.device),
            differ("driver", &self.driver, &model.driver),
            differ("settings", &self.settings, &model.settings),
            differ("in_prod", &self.in_prod, &model.in_prod),
            differ("in_cons", &self.in_cons, &model.in_cons),
        ];
        let buffers = [
            ("event area", &self.area, &model.area),
            ("entry page", &self.page, &model.page),
            ("driver's packet", &self.packet, &model.packet),
            ("ring page", &self.ring_page, &model.ring_page),
            ("input", &self.input, &model.input),
            ("text", &self.text, &model.text),
            ("out", &self.out, &model.out),
        ];
        let bytes = buffers.iter().map(|(name, library, model)| {
            let (at, one, another) = library.first_difference(model)?;
            Some(format!(
                "byte {at} of the {name}: library {one:#04x}, model {another:#04x}"
            ))
        });
        let differences: Vec<String> = states.into_iter().chain(bytes).flatten().collect();
        Some(differences.join("\n"))
    }
}

fn differ<T: PartialEq + std::fmt::Debug>(name: &str, library: &T, model: &T) -> Option<String> {
    (library != model).then(|| format!("{name}:\n  library {library:?}\n  model   {model:?}"))
}

/// A change that no call makes.
#[derive(Clone, Debug)]
pub enum Change {
    Area { at: usize, bytes: Vec<u8> },
    Page { at: usize, bytes: Vec<u8> },
    AreaLength(usize),
    PageLength(usize),
    Packet { at: usize, bytes: Vec<u8> },
    PacketLength(usize),
    RingPage { at: usize, bytes: Vec<u8> },
    RingPageLength(usize),
    RingIndices { in_prod: u32, in_cons: u32 },
    Geometry(Geometry),
    Device(Device),
    Driver(Driver),
    Settings(Settings),
}
