//! `ragnordb-catalog` as it stands in docs/src, with its private handlers made reachable.

include!(concat!(env!("OUT_DIR"), "/sources.rs"));

pub use catalog::*;
