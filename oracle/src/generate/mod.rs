//! Seeded tapes.

mod broken;
pub mod encode;
mod faults;
mod full;
mod openings;
mod ranges;
pub mod workload;

use crate::random::Random;

#[derive(Debug, Clone, Copy, PartialEq, Eq)]
pub enum Kind {
    /// Long workloads whose commands are mostly good.
    Deep,
    /// Every admission fault alone, then several together.
    Faults,
    /// Tables filled to their room, and more.
    Full,
    /// Tapes that end in an unknown byte or inside a command.
    Broken,
    /// Openings of all sorts, and a few commands behind them.
    Opening,
    /// One stored range against every range over a list of short keys.
    Ranges,
}

pub const KINDS: [Kind; 6] = [
    Kind::Deep,
    Kind::Faults,
    Kind::Full,
    Kind::Broken,
    Kind::Opening,
    Kind::Ranges,
];

impl Kind {
    pub fn name(self) -> &'static str {
        match self {
            Self::Deep => "deep",
            Self::Faults => "faults",
            Self::Full => "full",
            Self::Broken => "broken",
            Self::Opening => "opening",
            Self::Ranges => "ranges",
        }
    }

    pub fn named(name: &str) -> Option<Self> {
        KINDS.into_iter().find(|kind| kind.name() == name)
    }
}

/// A tape in its parts: the opening, then the commands. The last part of a broken tape is what breaks
/// it.
#[derive(Debug, Clone)]
pub struct Parts {
    pub opening: Vec<u8>,
    pub commands: Vec<Vec<u8>>,
}

impl Parts {
    pub fn bytes(&self) -> Vec<u8> {
        let mut bytes = self.opening.clone();
        bytes.extend(self.commands.iter().flatten());
        bytes
    }
}

pub fn tape(kind: Kind, seed: u64) -> Parts {
    let mut random = Random::new(seed);
    // Tapes of several kinds with one seed have nothing in common.
    for _ in 0..=kind as usize {
        random = Random::new(random.next());
    }
    match kind {
        Kind::Deep => workload::deep(random),
        Kind::Faults => faults::faults(random),
        Kind::Full => full::full(random),
        Kind::Broken => broken::broken(random, seed),
        Kind::Opening => openings::openings(random),
        Kind::Ranges => ranges::ranges(random, seed),
    }
}
