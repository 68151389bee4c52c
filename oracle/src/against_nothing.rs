//! In the place of against.rs where no library is linked: the plan with the library is refused before it is run.

use crate::alter::HandMade;
use crate::coverage::Coverage;
use crate::difference::Difference;
use crate::random::Random;
use crate::tape::Line;

#[derive(Default)]
pub struct Sent {
    pub pieces: u64,
    pub cut: u64,
    pub blocks: u64,
    pub sound: u64,
    pub questions: u64,
    pub coverage: Coverage,
}

impl Sent {
    pub fn merge(&mut self, _: Self) {}
}

pub fn missing() -> Option<String> {
    Some("this program has no library: build it with --features library".to_string())
}

pub fn tape(_: &[u8], _: &[Line], _: &str, _: Random, _: &mut Sent) -> Result<(), Difference> {
    unreachable!("`missing` says so")
}

pub fn hand_made(_: &HandMade, _: &mut Random, _: &mut Sent) -> Result<(), Difference> {
    unreachable!("`missing` says so")
}
