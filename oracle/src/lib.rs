//! The oracle: the Rust handlers of docs/src behind document 01's command tape. README.md says how to
//! use it. The benchmark uses it as a library.

pub mod admission;
#[cfg(feature = "library")]
pub mod against;
#[cfg(not(feature = "library"))]
mod against_nothing;
pub mod alter;
pub mod blocks;
pub mod cases;
pub mod compare;
pub mod coverage;
pub mod difference;
pub mod dump;
pub mod generate;
pub mod handlers;
pub mod model;
mod near;
pub mod random;
pub mod tape;
pub mod trials;
pub mod vectors;

/// The output lines as text.
pub fn text(lines: &[tape::Line]) -> String {
    lines.iter().map(|line| format!("{line}\n")).collect()
}
