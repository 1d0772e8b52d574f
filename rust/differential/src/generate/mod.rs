//! Random lists of calls, with what others do between them.

mod accesses;
mod damaged;
mod entries;
mod hostile;
mod nodes;
mod packets;
mod revision1;
mod revisions;
mod ring;
mod traffic;

use crate::call::Call;
use crate::random::Random;
use crate::world::{Change, World};
use std::fmt;
use thayarqo_model::geometry::Geometry;

pub(crate) use accesses::quiet_access;
pub(crate) use damaged::other_geometry;
pub(crate) use entries::plug_in;
pub(crate) use packets::packet;
pub(crate) use revisions::serve;
pub(crate) use ring::{begin as begin_ring, event_bytes};
pub(crate) use traffic::{add, own_step, remove, Phase};

/// The next thing that happens.
#[derive(Clone, Debug)]
pub enum Action {
    Call(Call),
    Change(Change),
}

impl fmt::Display for Action {
    fn fmt(&self, to: &mut fmt::Formatter) -> fmt::Result {
        match self {
            Action::Call(call) => call.fmt(to),
            Action::Change(change) => write!(to, "changed: {change:?}"),
        }
    }
}

/// What kind of things happen in a list.
#[derive(Clone, Copy, Debug, PartialEq, Eq)]
pub enum Mood {
    /// A host and a guest that keep to the rules.
    Traffic,
    /// A guest that stores impossible pointers and scribbles over its pages.
    Hostile,
    /// A caller that passes broken states, wrong lengths and other sizes.
    Damaged,
    /// Node settings.
    Nodes,
    /// The keyboard ring, with a front end that scribbles over its page.
    Ring,
}

/// The rest of a list, from what has become of the world so far.
pub struct List {
    mood: Mood,
    geometry: Geometry,
    phase: Phase,
}

impl List {
    pub fn new(mood: Mood, geometry: Geometry) -> List {
        List {
            mood,
            geometry,
            phase: Phase::Filling,
        }
    }

    pub fn next(&mut self, random: &mut Random, world: &World) -> Action {
        self.phase.turn(random, world);
        match self.mood {
            Mood::Nodes => return nodes::next(random),
            Mood::Ring => return ring::next(random, world, self.phase),
            Mood::Hostile if random.once_in(4) => return hostile::next(random, world),
            Mood::Damaged if random.once_in(16) => return hostile::next(random, world),
            Mood::Damaged if damaged::is_due(random, world, self.geometry) => {
                return damaged::next(random, world, self.geometry)
            }
            _ => {}
        }
        Action::Call(traffic::next(random, world, self.phase))
    }
}

/// How many slots there are, also for sizes that aren't allowed.
pub(crate) fn slots(geometry: Geometry) -> u32 {
    4096 / geometry.entry_size.clamp(1, 4096)
}

/// How long the ring is, also for sizes that aren't allowed.
pub(crate) fn ring_length(geometry: Geometry) -> u32 {
    (geometry.pages.min(16) * 4096 / geometry.record_size.max(1)).saturating_sub(1)
}
