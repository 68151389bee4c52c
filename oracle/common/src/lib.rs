//! The part of `ragnordb-common` that the handlers are built on.
//!
//! `ids`, `metadata_codec` and `proto::metadata` are the files of docs/src as they are. The rest of
//! that crate is not in docs/src: `catalog_codec`, `proto::catalog`, `proto::ids`, `proto::row` and
//! the error type are stubs with the names and fields that those three files and the catalog use.

pub mod catalog_codec;
mod error;

#[path = "../../../docs/src/crates/ragnordb-common/src/ids.rs"]
#[rustfmt::skip]
pub mod ids;
#[path = "../../../docs/src/crates/ragnordb-common/src/metadata_codec.rs"]
#[rustfmt::skip]
pub mod metadata_codec;

pub mod proto;

pub use error::{Error, Result};
