//! What a run found: the answers that came, and the first difference.

use crate::call::{Answer, Call};
use crate::generate::{Action, Mood};
use std::collections::{BTreeMap, VecDeque};
use std::fmt;
use thayarqo_model::geometry::Geometry;

pub struct Report {
    pub seed: u64,
    pub calls: u64,
    pub lists: u64,
    /// Lists under allowed sizes; each of the geometries has its turn.
    pub device_lists: u32,
    /// How often each call answered each number.
    pub answers: BTreeMap<&'static str, [u64; 13]>,
    /// How often a step told each of the header's kinds.
    pub told: [u64; 8],
    /// How often a step of revision 1 took a record with just that flag, by its bit.
    pub flags: [u64; 11],
    pub difference: Option<Difference>,
}

/// Where library and model part, with the end of the list so far.
pub struct Difference {
    geometry: Geometry,
    mood: Mood,
    place: u32,
    what: String,
    actions: Vec<String>,
}

impl Report {
    pub(crate) fn new(seed: u64) -> Report {
        Report {
            seed,
            calls: 0,
            lists: 0,
            device_lists: 0,
            answers: BTreeMap::new(),
            told: [0; 8],
            flags: [0; 11],
            difference: None,
        }
    }

    pub(crate) fn count(&mut self, call: &Call, answer: &Answer) {
        self.calls += 1;
        let answers = self.answers.entry(call.name()).or_default();
        if let Some(count) = answers.get_mut(usize::from(answer.number())) {
            *count += 1;
        }
        let kind = match answer {
            Answer::Told(told) => self.told.get_mut(usize::from(told.what)),
            Answer::Record(record) if record.flags.is_power_of_two() => {
                self.flags.get_mut(record.flags.trailing_zeros() as usize)
            }
            _ => None,
        };
        if let Some(count) = kind {
            *count += 1;
        }
    }

    /// The numbers that a call answered, rising.
    pub fn numbers_of(&self, call: &str) -> Vec<usize> {
        let counts = self.answers.get(call).copied().unwrap_or_default();
        (0..13).filter(|&number| counts[number] > 0).collect()
    }
}

impl Difference {
    pub(crate) fn new(
        geometry: Geometry,
        mood: Mood,
        place: u32,
        what: String,
        actions: &VecDeque<Action>,
    ) -> Difference {
        Difference {
            geometry,
            mood,
            place,
            what,
            actions: actions.iter().map(Action::to_string).collect(),
        }
    }
}

impl fmt::Display for Report {
    fn fmt(&self, to: &mut fmt::Formatter) -> fmt::Result {
        let Report { seed, calls, lists, .. } = self;
        writeln!(to, "seed {seed}: {calls} calls in {lists} lists")?;
        for (call, counts) in &self.answers {
            write!(to, "  {call:<15}")?;
            for (number, count) in counts.iter().enumerate().filter(|(_, count)| **count > 0) {
                write!(to, " {number}: {count}")?;
            }
            writeln!(to)?;
        }
        writeln!(to, "  what steps told {:?}", self.told)?;
        writeln!(to, "  flags in revision 1 {:?}", self.flags)?;
        match &self.difference {
            Some(difference) => write!(to, "{difference}"),
            None => write!(to, "no difference"),
        }
    }
}

impl fmt::Display for Difference {
    fn fmt(&self, to: &mut fmt::Formatter) -> fmt::Result {
        let Difference {
            geometry,
            mood,
            place,
            what,
            actions,
        } = self;
        writeln!(to, "a difference, at action {place} of a list of {mood:?}")?;
        writeln!(to, "under {geometry:?}")?;
        writeln!(to, "{what}")?;
        writeln!(to, "The list's last actions, the differing call at the end:")?;
        write!(to, "  {}", actions.join("\n  "))
    }
}
