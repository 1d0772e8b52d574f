//! Random lists of calls, made on the proved library and on the model. Answers, states and every byte of every buffer are compared
//! after each call. A second run holds the library to what it promises of whole lists: see [`delivery`].
#![forbid(unsafe_code)]

mod call;
mod convert;
pub mod delivery;
mod generate;
mod guarded;
mod library;
mod logs;
mod random;
mod reference;
mod report;
mod ring_order;
mod sender;
mod world;

pub use call::{Answer, Call, Core};
pub use library::Library;
pub use report::{Difference, Report};

use generate::{begin_ring, other_geometry, plug_in, serve, Action, List, Mood};
use random::Random;
use std::collections::VecDeque;
use thayarqo_model::geometry::Geometry;
use thayarqo_model::{Fault, Model};
use world::World;

/// How many actions of a list are told with a difference.
const TOLD_ACTIONS: usize = 12;

/// How many geometries are allowed: pages, record sizes, entry sizes.
pub const GEOMETRIES: u32 = 8 * 4 * 48;

/// Makes at least that many calls, unless a difference is found before.
pub fn run(seed: u64, calls: u64, fault: Fault) -> Report {
    let mut random = Random::new(seed);
    let model = Model { fault };
    let mut report = Report::new(seed);
    while report.calls < calls && report.difference.is_none() {
        let mood = random.pick(&[
            Mood::Traffic,
            Mood::Traffic,
            Mood::Hostile,
            Mood::Hostile,
            Mood::Hostile,
            Mood::Damaged,
            Mood::Damaged,
            Mood::Nodes,
            Mood::Ring,
        ]);
        run_list(&mut random, model, mood, &mut report);
    }
    report
}

/// The allowed geometries one after the other, and now and then another one.
fn next_geometry(random: &mut Random, mood: Mood, report: &mut Report) -> Geometry {
    let allowed = allowed_geometry(report.device_lists);
    match mood {
        Mood::Nodes | Mood::Ring => allowed,
        _ if random.once_in(40) => other_geometry(random, allowed),
        _ => {
            report.device_lists += 1;
            allowed
        }
    }
}

fn allowed_geometry(number: u32) -> Geometry {
    Geometry {
        pages: 1 + number % 8,
        record_size: 8 << (number / 8 % 4),
        entry_size: 68 + 4 * (number / 32 % 48),
    }
}

fn run_list(random: &mut Random, model: Model, mood: Mood, report: &mut Report) {
    let geometry = next_geometry(random, mood, report);
    report.lists += 1;
    let mut library_world = started(random, geometry);
    let mut model_world = library_world.clone();
    let mut list = List::new(mood, geometry);
    let mut told = VecDeque::new();
    for place in 0..list_length(random, geometry) {
        let action = list.next(random, &library_world);
        let difference = act(&action, &mut library_world, &mut model_world, model, report);
        if told.len() == TOLD_ACTIONS {
            told.pop_front();
        }
        told.push_back(action);
        if let Some(what) = difference {
            report.difference = Some(Difference::new(geometry, mood, place, what, &told));
            return;
        }
    }
}

/// Buffers of zeros or of any bytes, and now and then a device that has been on for long, with its ring empty at some place.
fn started(random: &mut Random, geometry: Geometry) -> World {
    let mut world = World::new(geometry);
    for buffer in [&mut world.area, &mut world.page, &mut world.packet] {
        let bytes = match random.once_in(2) {
            true => vec![0; buffer.bytes().len()],
            false => random.bytes(buffer.bytes().len()),
        };
        buffer.load(&bytes);
    }
    begin_ring(random, &mut world);
    if geometry.is_allowed() && random.once_in(2) {
        plug_in(random, &mut world, geometry);
        serve(random, &mut world.device);
        let index = random.below(geometry.ring_length());
        (world.device.on, world.device.write_index) = (true, index);
        let pointers = [index.to_le_bytes(), index.to_le_bytes()].concat();
        world.area.scribble(0, &pointers);
    }
    world
}

/// A longer ring takes longer to fill.
fn list_length(random: &mut Random, geometry: Geometry) -> u32 {
    match geometry.is_allowed() {
        true => 50 + random.below(150) + geometry.ring_length() / 4,
        false => 20,
    }
}

/// Makes a call on both sides, or changes both worlds alike. What differs after it, if anything.
fn act(
    action: &Action,
    library_world: &mut World,
    model_world: &mut World,
    model: Model,
    report: &mut Report,
) -> Option<String> {
    match action {
        Action::Change(change) => {
            library_world.change(change);
            model_world.change(change);
            None
        }
        Action::Call(call) => {
            let answer = Library.call(library_world, call);
            let expected = model.call(model_world, call);
            report.count(call, &answer);
            if answer != expected {
                return Some(format!("library {answer:?}\nmodel   {expected:?}"));
            }
            library_world.difference(model_world)
        }
    }
}

#[cfg(test)]
mod tests {
    use super::*;

    #[test]
    fn every_allowed_geometry_has_its_number() {
        let mut all: Vec<_> = (0..GEOMETRIES)
            .map(allowed_geometry)
            .map(|geometry| {
                assert!(geometry.is_allowed());
                (geometry.pages, geometry.record_size, geometry.entry_size)
            })
            .collect();
        all.sort_unstable();
        all.dedup();
        assert_eq!(all.len(), GEOMETRIES as usize);
    }
}
